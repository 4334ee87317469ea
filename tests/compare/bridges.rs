//! Books in which bridges abound.

use crate::books::scatter;
use crate::random::Random;
use reference::graph::{Graph, Right, Vertex, GRANT, TAKE};

/// Hardly anything but rights to grant: where all act, each is a bridge, and there are many rows of bridges from one to another.
pub fn grants(random: &mut Random, graph: &mut Graph) {
    let n = graph.size();
    for _ in 0..random.between(n, 2 * n) {
        graph.give(random.below(n), GRANT, random.below(n));
    }
    let others = random.between(1, 3);
    scatter(random, graph, others);
}

/// Subjects in layers, with bridges from each only to the next, so that many rows of bridges are equally short.
pub fn grid(random: &mut Random, n: usize) -> Graph {
    let mut graph = Graph::new(vec![true; n]);
    let order = random.shuffled(n);
    let width = random.between(2, 4);
    for (i, &u) in order.iter().enumerate() {
        for &v in order.iter().skip((i / width + 1) * width).take(width) {
            let (from, to) = if random.chance(50) { (u, v) } else { (v, u) };
            if random.chance(80) {
                graph.give(from, GRANT, to);
            }
        }
    }
    for _ in 0..random.between(1, 3) {
        let r = random.between(2, 7) as Right;
        graph.give(random.below(n), r, random.below(n));
    }
    graph
}

/// How two subjects are joined, over objects between them.
#[derive(Clone, Copy)]
enum Joint {
    TakeForth,
    TakeBack,
    GrantForth,
    GrantBack,
    Apart,
}

const JOINTS: [&[Joint]; 7] = [
    &[Joint::TakeForth],
    &[Joint::TakeBack],
    &[Joint::GrantForth],
    &[Joint::GrantBack],
    &[Joint::TakeForth, Joint::GrantBack],
    &[Joint::TakeForth, Joint::TakeBack, Joint::GrantForth, Joint::GrantBack],
    &[Joint::TakeForth, Joint::TakeBack, Joint::GrantForth, Joint::GrantBack, Joint::Apart],
];

/// Subjects in a row or a tree, with objects between them over which bridges go, and something that several may grant to.
pub fn bridges(random: &mut Random, n: usize) -> Graph {
    let mut numbers = random.shuffled(n).into_iter();
    let mut graph = Graph::new(vec![false; n]);
    let mut subjects: Vec<Vertex> = Vec::new();
    let straight = random.chance(60);
    let longest = random.pick(&[0, 0, 1, 2, 3]);
    let joints = random.pick(&JOINTS);
    while let Some(b) = numbers.next() {
        let a = if straight { subjects.last().copied() } else { random.pick_any(&subjects) };
        subjects.push(b);
        if let Some(a) = a {
            let (forth, back) = (random.between(0, longest), random.between(0, longest));
            let (u, v) = (
                take_path(&mut graph, a, numbers.by_ref().take(forth)),
                take_path(&mut graph, b, numbers.by_ref().take(back)),
            );
            for _ in 0..random.pick(&[1, 1, 2, 3]) {
                join(&mut graph, random.pick(joints), (a, u), (b, v));
            }
        }
    }
    let mut acting = with_subjects(&graph, &subjects);
    if random.chance(50) {
        hub(random, &mut acting);
    }
    let x = random.below(n);
    for _ in 0..random.below(4) {
        acting.give(random.below(n), GRANT, x);
    }
    for _ in 0..random.between(1, 4) {
        acting.give(random.below(n), random.between(0, 7) as Right, random.below(n));
    }
    acting
}

/// Somebody may take from a hub that may take from many: whoever comes to have that right has shorter paths than before.
fn hub(random: &mut Random, graph: &mut Graph) {
    let n = graph.size();
    let hub = random.below(n);
    graph.give(random.below(n), TAKE, hub);
    for _ in 0..random.between(1, 1 + n / 3) {
        graph.give(hub, TAKE, random.below(n));
    }
}

/// Joins a, from whom a take path leads to u, with b, from whom one leads to v.
fn join(graph: &mut Graph, joint: Joint, (a, u): (Vertex, Vertex), (b, v): (Vertex, Vertex)) {
    match joint {
        Joint::TakeForth => graph.give(u, TAKE, b),
        Joint::TakeBack => graph.give(v, TAKE, a),
        Joint::GrantForth => graph.give(u, GRANT, v),
        Joint::GrantBack => graph.give(v, GRANT, u),
        Joint::Apart => {}
    }
}

/// Take rights from each to the next; where they end.
fn take_path(graph: &mut Graph, from: Vertex, over: impl Iterator<Item = Vertex>) -> Vertex {
    over.fold(from, |at, next| {
        graph.give(at, TAKE, next);
        next
    })
}

fn with_subjects(graph: &Graph, subjects: &[Vertex]) -> Graph {
    let mut out = Graph::new(graph.vertices().map(|v| subjects.contains(&v)).collect());
    for x in graph.vertices() {
        for (r, y) in graph.held_by(x) {
            out.give(x, r, y);
        }
    }
    out
}
