//! Random books of many shapes and sizes.

use crate::bridges::{bridges, grants, grid};
use crate::random::Random;
use reference::graph::{Graph, Right, GRANT, RIGHTS, TAKE};

#[derive(Clone, Copy)]
enum Shape {
    Sparse,
    Dense,
    Chain,
    Star,
    Cycle,
    Loops,
    Layers,
    Grants,
    Grid,
    Bridges,
}

const SHAPES: [Shape; 16] = [
    Shape::Sparse,
    Shape::Sparse,
    Shape::Dense,
    Shape::Chain,
    Shape::Star,
    Shape::Cycle,
    Shape::Loops,
    Shape::Layers,
    Shape::Layers,
    Shape::Grants,
    Shape::Grid,
    Shape::Grid,
    Shape::Grid,
    Shape::Bridges,
    Shape::Bridges,
    Shape::Bridges,
];

/// How many vertices a book that questions are asked of has.
pub fn size(random: &mut Random) -> usize {
    match random.below(16) {
        0 => 1,
        1 => 2,
        2 => 3,
        3..=8 => random.between(4, 12),
        9..=12 => random.between(13, 40),
        13 => 64,
        14 => 127,
        _ => 128,
    }
}

pub fn wide_size(random: &mut Random) -> usize {
    match random.below(4) {
        0 => 129,
        1 => 255,
        2 => random.between(250, 254),
        _ => random.between(130, 249),
    }
}

/// A book with n vertices.
pub fn book(random: &mut Random, n: usize) -> Graph {
    let acting = random.pick(&[0, 20, 50, 50, 70, 100, 100]);
    let mut graph = Graph::new((0..n).map(|_| random.chance(acting)).collect());
    match random.pick(&SHAPES) {
        Shape::Sparse => scatter(random, &mut graph, 2 * n),
        Shape::Dense => fill(random, &mut graph),
        Shape::Chain => chain(random, &mut graph),
        Shape::Star => star(random, &mut graph),
        Shape::Cycle => cycle(random, &mut graph),
        Shape::Loops => loops(random, &mut graph),
        Shape::Layers => layers(random, &mut graph),
        Shape::Grants => grants(random, &mut graph),
        Shape::Grid => graph = grid(random, n),
        Shape::Bridges => graph = bridges(random, n),
    }
    if random.chance(60) {
        scatter(random, &mut graph, 1 + n / 8);
    }
    graph
}

/// A right, mostly one that matters to the model.
pub fn right(random: &mut Random) -> Right {
    match random.below(10) {
        0..=3 => TAKE,
        4..=6 => GRANT,
        _ => random.below(usize::from(RIGHTS)) as Right,
    }
}

/// Rights here and there.
pub fn scatter(random: &mut Random, graph: &mut Graph, count: usize) {
    let n = graph.size();
    for _ in 0..count {
        let r = right(random);
        graph.give(random.below(n), r, random.below(n));
    }
}

fn fill(random: &mut Random, graph: &mut Graph) {
    let percent = random.pick(&[10, 50, 100]);
    for x in graph.vertices() {
        for r in 0..RIGHTS {
            for y in graph.vertices() {
                if random.chance(percent) {
                    graph.give(x, r, y);
                }
            }
        }
    }
}

/// A row of vertices, each with a right to the next or the last, mostly to take.
fn chain(random: &mut Random, graph: &mut Graph) {
    let order = random.shuffled(graph.size());
    let turned = random.pick(&[0, 0, 50]);
    for pair in order.windows(2) {
        let r = if random.chance(80) { TAKE } else { GRANT };
        if random.chance(turned) {
            graph.give(pair[1], r, pair[0]);
        } else {
            graph.give(pair[0], r, pair[1]);
        }
    }
    let last = order[graph.size() - 1];
    graph.give(last, random.between(0, 7) as Right, random.below(graph.size()));
}

fn star(random: &mut Random, graph: &mut Graph) {
    let middle = random.below(graph.size());
    for v in graph.vertices() {
        let r = right(random);
        if random.chance(50) {
            graph.give(v, r, middle);
        } else {
            graph.give(middle, r, v);
        }
    }
}

fn cycle(random: &mut Random, graph: &mut Graph) {
    let order = random.shuffled(graph.size());
    let length = random.between(1, graph.size());
    for i in 0..length {
        graph.give(order[i], TAKE, order[(i + 1) % length]);
    }
    scatter(random, graph, 1 + graph.size() / 4);
}

/// Rights to oneself.
fn loops(random: &mut Random, graph: &mut Graph) {
    for v in graph.vertices() {
        for _ in 0..random.below(4) {
            let r = right(random);
            graph.give(v, r, v);
        }
    }
    scatter(random, graph, graph.size());
}

/// Layers with rights from each to the next, or also back, so that many paths and rows of bridges are equally short.
fn layers(random: &mut Random, graph: &mut Graph) {
    let order = random.shuffled(graph.size());
    let width = random.between(1, 4);
    let (turned, granting) = (random.pick(&[0, 0, 50]), random.pick(&[5, 10, 50]));
    for (i, &u) in order.iter().enumerate() {
        let next = (i / width + 1) * width;
        for &v in order.iter().skip(next).take(width) {
            if random.chance(70) {
                let r = if random.chance(granting) { GRANT } else { TAKE };
                let (from, to) = if random.chance(turned) { (v, u) } else { (u, v) };
                graph.give(from, r, to);
            }
        }
    }
    scatter(random, graph, 1 + graph.size() / 6);
}
