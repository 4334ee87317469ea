//! Books as bytes.

use crate::fault::Fault;
use crate::graph::{Graph, MOST, MOST_ASKED};
use crate::reader::{set_bytes, Reader};
use std::ops::RangeInclusive;

const BOOK: u8 = 1;
const WIDE: u8 = 7;

/// How many vertices a book of a kind has, and in how many bytes its subjects stand.
fn form(kind: u8) -> (RangeInclusive<usize>, usize) {
    if kind == WIDE {
        (MOST_ASKED + 1..=MOST, 32)
    } else {
        (1..=MOST_ASKED, 16)
    }
}

/// A book that begins with 1.
pub fn read_book(reader: &mut Reader) -> Result<Graph, Fault> {
    let kind = reader.kind(|kind| kind == BOOK)?;
    read_behind_kind(reader, kind)
}

/// A book that begins with 1 or with 7.
pub fn read_any_book(reader: &mut Reader) -> Result<Graph, Fault> {
    let kind = reader.kind(|kind| kind == BOOK || kind == WIDE)?;
    read_behind_kind(reader, kind)
}

fn read_behind_kind(reader: &mut Reader, kind: u8) -> Result<Graph, Fault> {
    let (sizes, bytes) = form(kind);
    let not_there = |offset| Fault::NotThere { offset };
    let n = usize::from(reader.byte_if(|n| sizes.contains(&usize::from(n)), not_there)?);
    let mut graph = Graph::new(reader.set(bytes, n, not_there)?);
    for x in 0..n {
        read_rights(reader, &mut graph, x)?;
    }
    Ok(graph)
}

fn read_rights(reader: &mut Reader, graph: &mut Graph, x: usize) -> Result<(), Fault> {
    let mut last = None;
    for _ in 0..reader.number(2)? {
        let offset = reader.offset;
        let right = reader.right()?;
        if last.is_some_and(|(before, _)| right < before) {
            return Err(Fault::NotRising { offset });
        }
        let offset = reader.offset;
        let to = reader.vertex(graph.size())?;
        if last.is_some_and(|before| (right, to) <= before) {
            return Err(Fault::NotRising { offset });
        }
        graph.give(x, right, to);
        last = Some((right, to));
    }
    Ok(())
}

pub fn write_book(graph: &Graph) -> Vec<u8> {
    let kind = if graph.size() > MOST_ASKED { WIDE } else { BOOK };
    let subjects: Vec<bool> = graph.vertices().map(|v| graph.is_subject(v)).collect();
    let mut out = vec![kind, graph.size() as u8];
    out.extend(set_bytes(form(kind).1, &subjects));
    for x in graph.vertices() {
        let held: Vec<_> = graph.held_by(x).collect();
        out.extend((held.len() as u16).to_be_bytes());
        out.extend(held.iter().flat_map(|&(right, to)| [right, to as u8]));
    }
    out
}
