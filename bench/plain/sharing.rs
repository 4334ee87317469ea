//! Who could come to have what, for a whole book at once: island by island.
use crate::format::{Fault, Reader};
use crate::graph::Graph;
use crate::search::Links;
use crate::set::{each, has, lowest, one, Set, Vertex};

/// For each vertex and right, who could come to have it.
pub struct Sharing {
    rows: Box<[[Set; 8]; 128]>,
}

impl Sharing {
    pub fn of(graph: &Graph) -> Sharing {
        let mut rows = Box::new([[0; 8]; 128]);
        let links = Links::of(graph);
        let mut rest = links.subjects;
        let mut left = if graph.size == 128 { !0 } else { one(graph.size) - 1 };
        while rest != 0 {
            let island = links.barrier(lowest(rest));
            rest &= !island.inner;
            // Who is where the island reaches, and gets what it brings, has got what it has itself.
            left &= !(spread(graph, island.inner, island.out, &mut rows) & island.out);
        }
        hold(graph, left, &mut rows);
        Sharing { rows }
    }

    pub fn can_share(&self, x: Vertex, right: u8, y: Vertex) -> bool {
        has(self.rows[y as usize][right as usize], x)
    }
}

/// Adds what those of the set have now.
fn hold(graph: &Graph, set: Set, rows: &mut [[Set; 8]; 128]) {
    let mut held = 0;
    each(set, |x| held += graph.rows[x as usize].iter().map(|row| row.narrow().count_ones()).sum::<u32>());
    for right in 0..8 {
        // Turning whole blocks pays from some six rights to a vertex and kind on.
        if held < 48 * graph.size as u32 {
            each(set, |x| each(graph.targets(x, right), |y| rows[y as usize][right as usize] |= one(x)));
        } else {
            turn(graph, right, rows);
        }
    }
}

/// The rows of one right, turned round by blocks of 64.
fn turn(graph: &Graph, right: u8, rows: &mut [[Set; 8]; 128]) {
    for side in 0..2 {
        for part in 0..2 {
            let mut block = [0; 64];
            for (i, word) in block.iter_mut().enumerate() {
                *word = graph.rows[64 * side + i][right as usize].0[part];
            }
            transpose(&mut block);
            for (i, word) in block.iter().enumerate() {
                rows[64 * part + i][right as usize] |= (*word as u128) << (64 * side);
            }
        }
    }
}

/// 64 rows of 64 bits: blocks of 32, 16 .. 1 swapped.
fn transpose(block: &mut [u64; 64]) {
    let (mut width, mut mask) = (32, 0x0000_0000_ffff_ffff_u64);
    while width != 0 {
        let mut k = 0;
        while k < 64 {
            let swap = (block[k] >> width ^ block[k + width]) & mask;
            block[k] ^= swap << width;
            block[k + width] ^= swap;
            k = (k + width + 1) & !width;
        }
        width >>= 1;
        mask ^= mask << width;
    }
}

/// Adds what one island brings: all that `out` has goes to the island and to whom it can grant. Answers with those.
fn spread(graph: &Graph, inner: Set, out: Set, rows: &mut [[Set; 8]; 128]) -> Set {
    let mut held = [0; 8];
    each(out, |t| {
        for (all, row) in held.iter_mut().zip(&graph.rows[t as usize]) {
            *all |= row.narrow();
        }
    });
    let who = inner | held[1];
    for (right, targets) in held.iter().enumerate() {
        each(*targets, |y| rows[y as usize][right] |= who);
    }
    who
}

fn write_number(n: u32, out: &mut Vec<u8>) {
    if n >= 100 {
        out.push(b'0' + (n / 100) as u8);
    }
    if n >= 10 {
        out.push(b'0' + (n / 10 % 10) as u8);
    }
    out.push(b'0' + (n % 10) as u8);
}

/// The program could all.
pub fn print_table(bytes: &[u8]) -> Result<Vec<u8>, Fault> {
    let mut reader = Reader::new(bytes);
    let graph = reader.narrow_book()?;
    if !reader.is_done() {
        return Err(Fault::at(1, reader.at));
    }
    let sharing = Sharing::of(&graph);
    let mut out = Vec::with_capacity(32 * graph.size as usize);
    for row in &sharing.rows[..graph.size as usize] {
        for (right, who) in row.iter().enumerate() {
            write_number(who.count_ones(), &mut out);
            out.push(if right == 7 { b'\n' } else { b' ' });
        }
    }
    Ok(out)
}
