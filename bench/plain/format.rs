//! Books, acts and questions as bytes, and the faults of reading them.
use crate::graph::{Graph, Rule};
use crate::set::{Vertex, Wide};

#[derive(Debug)]
pub struct Fault {
    pub number: u8,
    pub place: Vec<usize>,
}

impl Fault {
    #[cold]
    pub fn at(number: u8, place: usize) -> Fault {
        Fault { number, place: vec![place] }
    }
}

/// The input and how far it is read.
pub struct Reader<'a> {
    pub bytes: &'a [u8],
    pub at: usize,
}

#[derive(Clone, Copy)]
pub struct Question {
    pub holder: Vertex,
    pub right: u8,
    pub target: Vertex,
}

impl<'a> Reader<'a> {
    pub fn new(bytes: &'a [u8]) -> Reader<'a> {
        Reader { bytes, at: 0 }
    }

    pub fn is_done(&self) -> bool {
        self.at >= self.bytes.len()
    }

    #[inline(always)]
    pub fn byte(&mut self) -> Result<u8, Fault> {
        let Some(byte) = self.bytes.get(self.at) else {
            return Err(Fault::at(1, self.bytes.len()));
        };
        self.at += 1;
        Ok(*byte)
    }

    #[inline(always)]
    pub fn below(&mut self, bound: u8) -> Result<u8, Fault> {
        let byte = self.byte()?;
        if byte < bound { Ok(byte) } else { Err(Fault::at(2, self.at - 1)) }
    }

    /// A number of so many bytes.
    pub fn count(&mut self, width: usize) -> Result<usize, Fault> {
        let mut n = 0;
        for _ in 0..width {
            n = n << 8 | self.byte()? as usize;
        }
        Ok(n)
    }

    /// A set of vertices below `size`, in so many bytes; one that has more is the fault `number`.
    pub fn set(&mut self, width: usize, size: u8, number: u8) -> Result<Wide, Fault> {
        let mut set = Wide::default();
        for more in (0..width).rev() {
            let byte = self.byte()?;
            let room = (size as usize).saturating_sub(8 * more);
            if room < 8 && byte >> room != 0 {
                return Err(Fault::at(number, self.at - 1));
            }
            set.0[more / 8] |= (byte as u64) << (8 * (more % 8));
        }
        Ok(set)
    }

    /// A book of up to 128 vertices.
    pub fn narrow_book(&mut self) -> Result<Graph, Fault> {
        if self.bytes.first() == Some(&7) {
            return Err(Fault::at(1, 0));
        }
        self.book()
    }

    pub fn book(&mut self) -> Result<Graph, Fault> {
        let is_wide = match self.byte()? {
            1 => false,
            7 => true,
            _ => return Err(Fault::at(1, 0)),
        };
        let size = self.byte()?;
        if size == 0 || (size > 128) != is_wide {
            return Err(Fault::at(2, 1));
        }
        let subjects = self.set(if is_wide { 32 } else { 16 }, size, 2)?;
        let mut graph = Graph::new(size, subjects);
        for p in 0..size {
            self.rights(p, &mut graph)?;
        }
        Ok(graph)
    }

    /// The rights of one vertex, strictly rising.
    fn rights(&mut self, p: Vertex, graph: &mut Graph) -> Result<(), Fault> {
        let count = self.count(2)?;
        let mut least = (0, 0);
        for _ in 0..count {
            let right = self.below(8)?;
            if right < least.0 {
                return Err(Fault::at(3, self.at - 1));
            }
            let to = self.below(graph.size)?;
            if (right, to) < least {
                return Err(Fault::at(3, self.at - 1));
            }
            graph.rows[p as usize][right as usize].insert(to);
            least = (right, to + 1);
        }
        Ok(())
    }

    #[inline(always)]
    pub fn act(&mut self, size: u8) -> Result<Rule, Fault> {
        let start = self.at;
        match self.byte()? {
            2 => Ok(Rule::Take { who: self.below(size)?, from: self.below(size)?, right: self.below(8)?, to: self.below(size)? }),
            3 => Ok(Rule::Grant { who: self.below(size)?, into: self.below(size)?, right: self.below(8)?, to: self.below(size)? }),
            4 => {
                let who = self.below(size)?;
                let flag = self.byte()?;
                if flag > 1 {
                    return Err(Fault::at(1, self.at - 1));
                }
                Ok(Rule::Create { who, subject: flag == 1, rights: self.byte()? })
            }
            5 => Ok(Rule::Remove { who: self.below(size)?, right: self.below(8)?, to: self.below(size)? }),
            _ => Err(Fault::at(1, start)),
        }
    }

    #[inline(always)]
    pub fn question(&mut self, size: u8) -> Result<Question, Fault> {
        let start = self.at;
        if self.byte()? != 6 {
            return Err(Fault::at(1, start));
        }
        Ok(Question { holder: self.below(size)?, right: self.below(8)?, target: self.below(size)? })
    }
}

pub fn write_book(graph: &Graph) -> Vec<u8> {
    let is_wide = graph.size > 128;
    let held: usize = graph.rows[..graph.size as usize].iter().flatten().map(Wide::len).sum();
    let mut out = Vec::with_capacity(34 + 2 * graph.size as usize + 2 * held);
    out.extend([if is_wide { 7 } else { 1 }, graph.size]);
    for word in graph.subjects.0[..if is_wide { 4 } else { 2 }].iter().rev() {
        out.extend(word.to_be_bytes());
    }
    for rows in &graph.rows[..graph.size as usize] {
        let count: usize = rows.iter().map(Wide::len).sum();
        out.extend((count as u16).to_be_bytes());
        for (right, row) in rows.iter().enumerate() {
            row.each(|to| out.extend([right as u8, to]));
        }
    }
    out
}

/// A set in 32 bytes.
pub fn write_set(set: u128, out: &mut Vec<u8>) {
    out.extend([0; 16]);
    out.extend(set.to_be_bytes());
}
