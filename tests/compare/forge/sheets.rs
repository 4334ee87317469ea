//! Forged sheets, made from right ones; some are right all the same.

use super::closure::{closed, closed_but, CONDITIONS};
use crate::random::Random;
use reference::answer::sheet_bytes;
use reference::certificate::Certificate;
use reference::graph::{Graph, Vertex, GRANT, TAKE};
use reference::question::Question;

#[derive(Clone, Copy)]
enum Set {
    Inner,
    Into,
    Out,
}

const SETS: [Set; 3] = [Set::Inner, Set::Into, Set::Out];

fn set(certificate: &mut Certificate, set: Set) -> &mut Vec<bool> {
    match set {
        Set::Inner => &mut certificate.inner,
        Set::Into => &mut certificate.into,
        Set::Out => &mut certificate.out,
    }
}

fn flipped(certificate: &Certificate, of: Set, v: Vertex) -> Certificate {
    let mut out = certificate.clone();
    set(&mut out, of)[v] ^= true;
    out
}

/// Sheets made from one that is right: each condition broken in turn by one bit, each broken and all others kept, and others.
pub fn forged(random: &mut Random, graph: &Graph, question: Question, right: &Certificate) -> Vec<Vec<u8>> {
    let n = graph.size();
    let mut forged: Vec<Certificate> = by_condition(graph, question, right)
        .into_iter()
        .filter_map(|flips| random.pick_any(&flips))
        .map(|(of, v)| flipped(right, of, v))
        .collect();
    let none = Certificate { inner: vec![false; n], into: vec![false; n], out: vec![false; n] };
    let missed = CONDITIONS.map(|condition| closed_but(graph, question.x, &none, Some(condition)));
    forged.extend(missed.into_iter().filter(|sheet| sheet != right));
    forged.push(none);
    forged.push(flipped(right, random.pick(&SETS), random.below(n)));
    forged.push(Certificate { inner: right.inner.clone(), into: right.out.clone(), out: right.into.clone() });
    forged.push(closed(graph, question.x, &flipped(right, random.pick(&[Set::Into, Set::Out]), random.below(n))));
    forged.push(whole(graph));
    let mut bytes: Vec<Vec<u8>> = forged.iter().map(sheet_bytes).collect();
    bytes.push(with_stranger(random, n, &sheet_bytes(right)));
    bytes
}

/// All sheets that differ from this one in one bit.
pub fn all_flips(right: &Certificate) -> Vec<Vec<u8>> {
    let n = right.inner.len();
    SETS.iter().flat_map(|&of| (0..n).map(move |v| sheet_bytes(&flipped(right, of, v)))).collect()
}

/// For each condition of a right sheet, the bits that break it if they are flipped.
fn by_condition(graph: &Graph, question: Question, right: &Certificate) -> Vec<Vec<(Set, Vertex)>> {
    let all = |of: Set, fits: &dyn Fn(Vertex) -> bool| -> Vec<(Set, Vertex)> {
        graph.vertices().filter(|&v| fits(v)).map(|v| (of, v)).collect()
    };
    let any = |fits: &dyn Fn(Vertex) -> bool| graph.vertices().any(fits);
    vec![
        all(Set::Out, &|v| graph.has(v, question.right, question.y)),
        all(Set::Inner, &|v| !graph.is_subject(v)),
        all(Set::Out, &|v| right.inner[v]),
        all(Set::Into, &|v| right.inner[v]),
        all(Set::Into, &|v| graph.has(v, GRANT, question.x)),
        all(Set::Into, &|v| v == question.x && graph.is_subject(v)),
        all(Set::Out, &|v| right.out[v] && any(&|o| right.out[o] && graph.has(o, TAKE, v))),
        all(Set::Into, &|v| right.into[v] && any(&|i| right.into[i] && graph.has(v, TAKE, i))),
        all(Set::Into, &|v| any(&|o| right.out[o] && graph.has(v, GRANT, o))),
        all(Set::Into, &|v| any(&|o| right.out[o] && graph.has(o, GRANT, v))),
        all(Set::Inner, &|v| right.inner[v]),
        all(Set::Out, &|v| !right.out[v]),
        all(Set::Into, &|v| !right.into[v]),
    ]
}

/// Everything in each set: right if nobody has the right.
pub fn whole(graph: &Graph) -> Certificate {
    let n = graph.size();
    Certificate {
        inner: graph.vertices().map(|v| graph.is_subject(v)).collect(),
        into: vec![true; n],
        out: vec![true; n],
    }
}

/// A vertex in one of the sets that isn't there.
fn with_stranger(random: &mut Random, n: usize, sheet: &[u8]) -> Vec<u8> {
    let mut bytes = sheet.to_vec();
    let v = if random.chance(50) { n } else { random.between(n, 255) };
    bytes[1 + 32 * random.below(3) + 31 - v / 8] |= 1 << (v % 8);
    bytes
}
