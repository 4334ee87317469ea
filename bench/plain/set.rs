//! Sets of vertices: 128 bits for what is asked of a book, 256 for a book that may grow.

pub type Vertex = u8;

/// Vertices below 128.
pub type Set = u128;

pub fn one(v: Vertex) -> Set {
    1 << v
}

pub fn has(set: Set, v: Vertex) -> bool {
    set >> v & 1 == 1
}

/// The lowest vertex of a set that has one.
pub fn lowest(set: Set) -> Vertex {
    let low = set as u64;
    if low != 0 { low.trailing_zeros() as u8 } else { 64 + ((set >> 64) as u64).trailing_zeros() as u8 }
}

/// Calls `f` with each vertex of the set, rising. A word at a time.
#[inline(always)]
pub fn each(set: Set, mut f: impl FnMut(Vertex)) {
    for (base, word) in [(0, set as u64), (64, (set >> 64) as u64)] {
        let mut rest = word;
        while rest != 0 {
            f(base + rest.trailing_zeros() as u8);
            rest &= rest - 1;
        }
    }
}

/// What the rows of the table have that belong to one of the set.
#[inline(always)]
pub fn gather(table: &[Set; 128], set: Set) -> Set {
    let mut all = 0;
    each(set, |v| all |= table[v as usize]);
    all
}

/// Vertices below 256.
#[derive(Clone, Copy, Default)]
pub struct Wide(pub [u64; 4]);

impl Wide {
    pub fn has(&self, v: Vertex) -> bool {
        self.0[v as usize / 64] >> (v % 64) & 1 == 1
    }
    pub fn insert(&mut self, v: Vertex) {
        self.0[v as usize / 64] |= 1 << (v % 64);
    }
    pub fn remove(&mut self, v: Vertex) {
        self.0[v as usize / 64] &= !(1 << (v % 64));
    }
    pub fn len(&self) -> usize {
        self.0.iter().map(|w| w.count_ones() as usize).sum()
    }
    /// What it has below 128.
    pub fn narrow(&self) -> Set {
        self.0[0] as u128 | (self.0[1] as u128) << 64
    }
    #[inline(always)]
    pub fn each(&self, mut f: impl FnMut(Vertex)) {
        for (i, word) in self.0.iter().enumerate() {
            let mut rest = *word;
            while rest != 0 {
                f((64 * i) as u8 + rest.trailing_zeros() as u8);
                rest &= rest - 1;
            }
        }
    }
}
