//! A book, and acts done to it.
use crate::format::{write_book, Fault, Reader};
use crate::set::{Set, Vertex, Wide};

pub const TAKE: u8 = 0;
pub const GRANT: u8 = 1;

pub enum Rule {
    Take { who: Vertex, from: Vertex, right: u8, to: Vertex },
    Grant { who: Vertex, into: Vertex, right: u8, to: Vertex },
    Create { who: Vertex, subject: bool, rights: u8 },
    Remove { who: Vertex, right: u8, to: Vertex },
}

pub enum Refusal {
    NotApplicable,
    Full,
}

pub struct Graph {
    pub size: u8,
    pub subjects: Wide,
    /// Whom each vertex has each right to.
    pub rows: Vec<[Wide; 8]>,
}

impl Graph {
    pub fn new(size: u8, subjects: Wide) -> Graph {
        Graph { size, subjects, rows: vec![[Wide::default(); 8]; 256] }
    }

    pub fn has(&self, p: Vertex, right: u8, q: Vertex) -> bool {
        self.rows[p as usize][right as usize].has(q)
    }

    fn add(&mut self, p: Vertex, right: u8, q: Vertex) {
        self.rows[p as usize][right as usize].insert(q)
    }

    /// Whom p has the right to, of a book of up to 128 vertices.
    pub fn targets(&self, p: Vertex, right: u8) -> Set {
        self.rows[p as usize][right as usize].narrow()
    }

    #[inline(always)]
    pub fn apply(&mut self, rule: &Rule) -> Result<(), Refusal> {
        match *rule {
            Rule::Take { who, from, right, to } => {
                if !(self.subjects.has(who) && self.has(who, TAKE, from) && self.has(from, right, to)) {
                    return Err(Refusal::NotApplicable);
                }
                self.add(who, right, to);
            }
            Rule::Grant { who, into, right, to } => {
                if !(self.subjects.has(who) && self.has(who, GRANT, into) && self.has(who, right, to)) {
                    return Err(Refusal::NotApplicable);
                }
                self.add(into, right, to);
            }
            Rule::Create { who, subject, rights } => return self.create(who, subject, rights),
            Rule::Remove { who, right, to } => {
                if !self.subjects.has(who) {
                    return Err(Refusal::NotApplicable);
                }
                self.rows[who as usize][right as usize].remove(to);
            }
        }
        Ok(())
    }

    fn create(&mut self, who: Vertex, subject: bool, rights: u8) -> Result<(), Refusal> {
        if !self.subjects.has(who) {
            return Err(Refusal::NotApplicable);
        }
        let new = self.size;
        if new == 255 {
            return Err(Refusal::Full);
        }
        self.size += 1;
        if subject {
            self.subjects.insert(new);
        }
        for right in 0..8 {
            if rights >> right & 1 == 1 {
                self.add(who, right, new);
            }
        }
        Ok(())
    }

    /// Reads the next act and does it.
    #[inline(always)]
    pub fn act(&mut self, reader: &mut Reader, number: usize) -> Result<Rule, Fault> {
        let rule = reader.act(self.size)?;
        match self.apply(&rule) {
            Ok(()) => Ok(rule),
            Err(Refusal::NotApplicable) => Err(Fault::at(4, number)),
            Err(Refusal::Full) => Err(Fault::at(5, number)),
        }
    }
}

/// The program book.
pub fn replay(bytes: &[u8]) -> Result<Vec<u8>, Fault> {
    let mut reader = Reader::new(bytes);
    let mut graph = reader.book()?;
    let mut number = 0;
    while !reader.is_done() {
        graph.act(&mut reader, number)?;
        number += 1;
    }
    Ok(write_book(&graph))
}
