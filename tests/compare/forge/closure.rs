//! The least sheets that meet conditions 2 to 5, or all of them but one.

use reference::certificate::Certificate;
use reference::graph::{Graph, Vertex, GRANT, TAKE};

/// The parts of conditions 2 to 5 that ask for something to be in a set.
#[derive(Clone, Copy, PartialEq, Eq)]
pub enum Condition {
    InnerInOut,
    InnerInInto,
    GrantsToHolder,
    HolderActs,
    TakenFromOut,
    TakesFromInto,
    GrantsToOut,
    GrantedByOut,
    SubjectInOut,
    SubjectInInto,
}

pub const CONDITIONS: [Condition; 10] = [
    Condition::InnerInOut,
    Condition::InnerInInto,
    Condition::GrantsToHolder,
    Condition::HolderActs,
    Condition::TakenFromOut,
    Condition::TakesFromInto,
    Condition::GrantsToOut,
    Condition::GrantedByOut,
    Condition::SubjectInOut,
    Condition::SubjectInInto,
];

/// The least sets that meet conditions 2 to 5 and have these in them.
pub fn closed(graph: &Graph, x: Vertex, from: &Certificate) -> Certificate {
    closed_but(graph, x, from, None)
}

/// As `closed`, one of the conditions being left out.
pub fn closed_but(graph: &Graph, x: Vertex, from: &Certificate, left_out: Option<Condition>) -> Certificate {
    let asks = |condition| left_out != Some(condition);
    let mut now = from.clone();
    loop {
        let before = now.clone();
        for v in graph.vertices() {
            let (subject, grants) = (graph.is_subject(v), graph.has(v, GRANT, x));
            now.inner[v] |= subject && now.out[v] && asks(Condition::SubjectInOut);
            now.inner[v] |= subject && now.into[v] && asks(Condition::SubjectInInto);
            now.out[v] |= now.inner[v] && asks(Condition::InnerInOut);
            now.into[v] |= now.inner[v] && asks(Condition::InnerInInto);
            now.into[v] |= grants && asks(Condition::GrantsToHolder);
            now.into[v] |= v == x && subject && asks(Condition::HolderActs);
            for w in graph.vertices() {
                let (takes, grants) = (graph.has(v, TAKE, w), graph.has(v, GRANT, w));
                now.out[w] |= now.out[v] && takes && asks(Condition::TakenFromOut);
                now.into[v] |= now.into[w] && takes && asks(Condition::TakesFromInto);
                now.into[v] |= now.out[w] && grants && asks(Condition::GrantsToOut);
                now.into[w] |= now.out[v] && grants && asks(Condition::GrantedByOut);
            }
        }
        if now == before {
            return now;
        }
    }
}
