//! The protection state: who has which right to what.

pub type Vertex = usize;
pub type Right = u8;

pub const TAKE: Right = 0;
pub const GRANT: Right = 1;
pub const RIGHTS: Right = 8;

/// The most vertices that a graph ever has.
pub const MOST: usize = 255;
/// The most vertices that a question may be asked of.
pub const MOST_ASKED: usize = 128;

/// The access matrix, with the rights of row x to column y as bits of a byte.
#[derive(Clone, PartialEq, Eq, Debug)]
pub struct Graph {
    subjects: Vec<bool>,
    matrix: Vec<Vec<u8>>,
}

impl Graph {
    /// Vertices that act or don't, and have no rights.
    pub fn new(subjects: Vec<bool>) -> Graph {
        let n = subjects.len();
        Graph { subjects, matrix: vec![vec![0; n]; n] }
    }

    pub fn size(&self) -> usize {
        self.subjects.len()
    }

    pub fn vertices(&self) -> std::ops::Range<Vertex> {
        0..self.size()
    }

    pub fn is_subject(&self, v: Vertex) -> bool {
        self.subjects[v]
    }

    pub fn subjects(&self) -> impl Iterator<Item = Vertex> + '_ {
        self.vertices().filter(|&v| self.subjects[v])
    }

    pub fn has(&self, x: Vertex, r: Right, y: Vertex) -> bool {
        self.matrix[x][y] >> r & 1 == 1
    }

    pub fn give(&mut self, x: Vertex, r: Right, y: Vertex) {
        self.matrix[x][y] |= 1 << r;
    }

    pub fn withdraw(&mut self, x: Vertex, r: Right, y: Vertex) {
        self.matrix[x][y] &= !(1 << r);
    }

    /// The rights of x with whom they are to, rising.
    pub fn held_by(&self, x: Vertex) -> impl Iterator<Item = (Right, Vertex)> + '_ {
        (0..RIGHTS).flat_map(move |r| self.vertices().filter(move |&y| self.has(x, r, y)).map(move |y| (r, y)))
    }

    /// A new vertex, to which nobody has a right and which has none.
    pub fn add(&mut self, subject: bool) -> Vertex {
        let new = self.size();
        self.subjects.push(subject);
        for row in &mut self.matrix {
            row.push(0);
        }
        self.matrix.push(vec![0; new + 1]);
        new
    }
}
