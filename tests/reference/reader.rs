//! Bytes read one after the other, with their offsets.

use crate::fault::Fault;
use crate::graph::{Right, Vertex, RIGHTS};

pub struct Reader<'a> {
    bytes: &'a [u8],
    pub offset: usize,
}

impl<'a> Reader<'a> {
    pub fn new(bytes: &'a [u8]) -> Reader<'a> {
        Reader { bytes, offset: 0 }
    }

    pub fn at_end(&self) -> bool {
        self.offset == self.bytes.len()
    }

    /// A byte that must be as it is asked for; `fault` says what it is otherwise, told with its offset.
    pub fn byte_if(&mut self, fits: impl Fn(u8) -> bool, fault: impl Fn(usize) -> Fault) -> Result<u8, Fault> {
        let offset = self.offset;
        let byte = *self.bytes.get(offset).ok_or(Fault::Malformed { offset })?;
        if !fits(byte) {
            return Err(fault(offset));
        }
        self.offset += 1;
        Ok(byte)
    }

    pub fn byte(&mut self) -> Result<u8, Fault> {
        self.byte_if(|_| true, |offset| Fault::Malformed { offset })
    }

    /// The first byte of a record, or another of which only some are known.
    pub fn kind(&mut self, known: impl Fn(u8) -> bool) -> Result<u8, Fault> {
        self.byte_if(known, |offset| Fault::Malformed { offset })
    }

    /// A number below a bound.
    fn below(&mut self, bound: usize) -> Result<u8, Fault> {
        self.byte_if(|byte| usize::from(byte) < bound, |offset| Fault::NotThere { offset })
    }

    pub fn vertex(&mut self, n: usize) -> Result<Vertex, Fault> {
        self.below(n).map(Vertex::from)
    }

    pub fn right(&mut self) -> Result<Right, Fault> {
        self.below(usize::from(RIGHTS))
    }

    /// A number of some bytes, the high one first.
    pub fn number(&mut self, bytes: usize) -> Result<usize, Fault> {
        (0..bytes).try_fold(0, |high, _| Ok(high << 8 | usize::from(self.byte()?)))
    }

    /// A set of vertices below n, as bits of some bytes; `fault` is for a byte with a vertex that isn't there.
    pub fn set(&mut self, bytes: usize, n: usize, fault: impl Fn(usize) -> Fault) -> Result<Vec<bool>, Fault> {
        let mut set = vec![false; n];
        for lowest in (0..bytes).rev().map(|i| 8 * i) {
            let there = |byte: u8| (0..8).all(|bit| byte >> bit & 1 == 0 || lowest + bit < n);
            let byte = self.byte_if(there, &fault)?;
            for bit in (0..8).filter(|bit| byte >> bit & 1 == 1) {
                set[lowest + bit] = true;
            }
        }
        Ok(set)
    }

    pub fn end(&self) -> Result<(), Fault> {
        if self.at_end() {
            Ok(())
        } else {
            Err(Fault::Malformed { offset: self.offset })
        }
    }
}

/// A set as bits of some bytes.
pub fn set_bytes(bytes: usize, set: &[bool]) -> Vec<u8> {
    let mut out = vec![0; bytes];
    for v in (0..set.len()).filter(|&v| set[v]) {
        out[bytes - 1 - v / 8] |= 1 << (v % 8);
    }
    out
}
