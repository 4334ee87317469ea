//! Random acts and questions about a graph.

use crate::books::right;
use crate::random::Random;
use reference::act::act_bytes;
use reference::graph::{Graph, Right, Vertex, GRANT, MOST, RIGHTS, TAKE};
use reference::question::Question;
use reference::rules::Rule;

/// The vertices to which x has a right.
fn targets(graph: &Graph, x: Vertex, r: Right) -> Vec<Vertex> {
    graph.vertices().filter(|&y| graph.has(x, r, y)).collect()
}

/// A rule that may be applied, if one is found; now and then also a creation of a 256th vertex.
pub fn applicable(random: &mut Random, graph: &Graph, creations: usize) -> Option<Rule> {
    let subjects: Vec<Vertex> = graph.subjects().collect();
    let who = random.pick_any(&subjects)?;
    if random.chance(if graph.size() < MOST { creations } else { 2 }) {
        return Some(Rule::Create { who, subject: random.chance(50), rights: random.byte() });
    }
    match random.below(10) {
        0..=3 => {
            let from = random.pick_any(&targets(graph, who, TAKE))?;
            let held: Vec<_> = graph.held_by(from).collect();
            random.pick_any(&held).map(|(right, to)| Rule::Take { who, from, right, to })
        }
        4..=6 => {
            let into = random.pick_any(&targets(graph, who, GRANT))?;
            let held: Vec<_> = graph.held_by(who).collect();
            random.pick_any(&held).map(|(right, to)| Rule::Grant { who, into, right, to })
        }
        _ => Some(removal(random, graph, who)),
    }
}

/// A right dropped, mostly one that is there.
fn removal(random: &mut Random, graph: &Graph, who: Vertex) -> Rule {
    let held: Vec<_> = graph.held_by(who).collect();
    let (right, to) = match random.pick_any(&held) {
        Some(held) if random.chance(80) => held,
        _ => (right(random), random.below(graph.size())),
    };
    Rule::Remove { who, right, to }
}

/// Any rule about vertices of the graph, whether or not it may be applied.
pub fn any(random: &mut Random, graph: &Graph) -> Rule {
    let n = graph.size();
    let (who, other, right, to) = (random.below(n), random.below(n), right(random), random.below(n));
    match random.below(4) {
        0 => Rule::Take { who, from: other, right, to },
        1 => Rule::Grant { who, into: other, right, to },
        2 => Rule::Create { who, subject: random.chance(50), rights: random.byte() },
        _ => Rule::Remove { who, right, to },
    }
}

/// Acts, applied to the graph as they are made; all may be done, but that many times of a hundred one of them may be anything.
pub fn acts(random: &mut Random, graph: &mut Graph, count: usize, creations: usize, odd: usize) -> Vec<u8> {
    let odd = random.chance(odd).then(|| random.below(count + 1));
    let mut bytes = Vec::new();
    for i in 0..count {
        if odd == Some(i) {
            let mut act = act_bytes(any(random, graph));
            if random.chance(40) {
                let at = random.between(1, act.len() - 1);
                act[at] = if random.chance(50) { graph.size() as u8 } else { random.byte() };
            }
            bytes.extend(act);
        } else if let Some(rule) = (0..4).find_map(|_| applicable(random, graph, creations)) {
            let _ = graph.apply(rule);
            bytes.extend(act_bytes(rule));
        }
    }
    bytes
}

/// A question, mostly about a right that somebody has, often about the right to take from what may take from many.
pub fn question(random: &mut Random, graph: &Graph) -> Question {
    let n = graph.size();
    let x = random.below(n);
    if random.chance(20) {
        let some = [random.below(n), random.below(n), random.below(n), random.below(n)];
        let y = some.into_iter().max_by_key(|&y| targets(graph, y, TAKE).len()).unwrap_or(x);
        return Question { x, right: TAKE, y };
    }
    let held: Vec<_> = graph.held_by(random.below(n)).collect();
    match random.pick_any(&held) {
        Some((right, y)) if random.chance(85) => Question { x, right, y },
        _ => Question { x, right: random.below(usize::from(RIGHTS)) as Right, y: random.below(n) },
    }
}
