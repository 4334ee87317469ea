//! Shortest paths over any relation of vertices, the first of them in lexicographic order; and what a vertex leads to.

use crate::graph::Vertex;
use std::collections::VecDeque;

/// How many steps lead from each vertex to `end`, where any do.
fn distances(n: usize, end: Vertex, step: &impl Fn(Vertex, Vertex) -> bool) -> Vec<Option<usize>> {
    let mut far = vec![None; n];
    far[end] = Some(0);
    let mut queue = VecDeque::from([end]);
    while let Some(v) = queue.pop_front() {
        for u in 0..n {
            if far[u].is_none() && step(u, v) {
                far[u] = far[v].map(|d: usize| d + 1);
                queue.push_back(u);
            }
        }
    }
    far
}

/// The vertices of the shortest path from `start` to `end`, of equals the lexicographically first.
pub fn shortest_path(
    n: usize,
    start: Vertex,
    end: Vertex,
    step: impl Fn(Vertex, Vertex) -> bool,
) -> Option<Vec<Vertex>> {
    let far = distances(n, end, &step);
    let mut path = vec![start];
    let mut at = start;
    for left in (0..far[start]?).rev() {
        at = (0..n).find(|&v| far[v] == Some(left) && step(at, v))?;
        path.push(at);
    }
    Some(path)
}

/// The vertices to which zero or more steps lead from one of `starts`.
pub fn reached(n: usize, starts: impl IntoIterator<Item = Vertex>, step: impl Fn(Vertex, Vertex) -> bool) -> Vec<bool> {
    let mut seen = vec![false; n];
    let mut open: Vec<Vertex> = starts.into_iter().collect();
    while let Some(v) = open.pop() {
        if !std::mem::replace(&mut seen[v], true) {
            open.extend((0..n).filter(|&w| !seen[w] && step(v, w)));
        }
    }
    seen
}
