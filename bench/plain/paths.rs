//! Take paths and bridges of a whole book, and shortest rows of steps.
use crate::search::Links;
use crate::set::{each, gather, has, lowest, one, Set, Vertex};

/// To whom a step leads from each vertex, and from whom one leads to it.
pub struct Steps<'a> {
    pub ahead: &'a [Set; 128],
    pub back: &'a [Set; 128],
}

/// The vertices behind the first one of a row.
pub struct Row {
    vertices: [Vertex; 128],
    len: usize,
}

impl Row {
    pub fn vertices(&self) -> &[Vertex] {
        &self.vertices[..self.len]
    }
}

impl Steps<'_> {
    /// The shortest row from x to y, of equals the first in lexicographic order. There is one.
    pub fn shortest(&self, x: Vertex, y: Vertex) -> Row {
        let mut row = Row { vertices: [0; 128], len: 0 };
        if x == y {
            return row;
        }
        // Layer k has from whom k steps lead to y, and no fewer.
        let mut layers = [0; 128];
        let (mut near, mut fresh) = (one(y), one(y));
        while !has(near, x) {
            layers[row.len] = fresh;
            row.len += 1;
            fresh = gather(self.back, fresh) & !near;
            near |= fresh;
        }
        let mut at = x;
        for (vertex, layer) in row.vertices[..row.len].iter_mut().zip(layers[..row.len].iter().rev()) {
            at = lowest(self.ahead[at as usize] & layer);
            *vertex = at;
        }
        row
    }
}

/// Where take paths lead to from each vertex.
pub fn lead(links: &Links, size: u8) -> [Set; 128] {
    let mut rows = links.takes;
    for x in 0..size {
        rows[x as usize] |= one(x);
    }
    for k in 0..size {
        let row = rows[k as usize];
        for other in &mut rows[..size as usize] {
            if has(*other, k) {
                *other |= row;
            }
        }
    }
    rows
}

pub fn turned(rows: &[Set; 128], size: u8) -> [Set; 128] {
    let mut back = [0; 128];
    for x in 0..size {
        each(rows[x as usize], |y| back[y as usize] |= one(x));
    }
    back
}

/// To whom a bridge leads from each subject.
pub fn bridges(links: &Links, from: &[Set; 128], to: &[Set; 128]) -> [Set; 128] {
    let mut rows = [0; 128];
    each(links.subjects, |p| {
        let ahead = from[p as usize];
        let met = gather(to, gather(&links.beside, ahead));
        rows[p as usize] = links.subjects & (ahead | to[p as usize] | met);
    });
    rows
}
