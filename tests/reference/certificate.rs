//! The certificate of a no: three sets of vertices, and what makes them right.

use crate::fault::Fault;
use crate::graph::{Graph, Right, Vertex, GRANT, TAKE};
use crate::paths::reached;
use crate::spans::Spans;

/// The sets J, I and O of a sheet.
#[derive(Clone, PartialEq, Eq, Debug)]
pub struct Certificate {
    pub inner: Vec<bool>,
    pub into: Vec<bool>,
    pub out: Vec<bool>,
}

impl Certificate {
    /// What `could` writes where x never comes to have a right.
    pub fn of(spans: &Spans, x: Vertex) -> Certificate {
        let graph = spans.graph;
        let n = graph.size();
        let inner = spans.inner(x);
        let out = reached(n, graph.vertices().filter(|&v| inner[v]), |u, v| graph.has(u, TAKE, v));
        let beside_out =
            |v: Vertex| graph.vertices().any(|o| out[o] && (graph.has(v, GRANT, o) || graph.has(o, GRANT, v)));
        let ends = graph
            .vertices()
            .filter(|&v| (v == x && graph.is_subject(x)) || graph.has(v, GRANT, x) || inner[v] || beside_out(v));
        let into = reached(n, ends, |u, v| graph.has(v, TAKE, u));
        Certificate { inner, into, out }
    }

    /// The first fault of the certificate, in the order of docs/FORMATS.md; none if it is right.
    pub fn check(&self, graph: &Graph, x: Vertex, right: Right, y: Vertex) -> Result<(), Fault> {
        if graph.has(x, right, y) {
            return Err(Fault::Held { x });
        }
        if let Some(vertex) = graph.vertices().find(|&v| self.out[v] && graph.has(v, right, y)) {
            return Err(Fault::OutHolds { vertex });
        }
        graph.vertices().try_for_each(|v| self.check_vertex(graph, x, v))
    }

    fn check_vertex(&self, graph: &Graph, x: Vertex, v: Vertex) -> Result<(), Fault> {
        if self.stands_wrong(graph, x, v) {
            return Err(Fault::Broken { vertex: v, held: None });
        }
        match graph.held_by(v).find(|&(r, to)| self.breaks(x, v, r, to)) {
            Some(held) => Err(Fault::Broken { vertex: v, held: Some(held) }),
            None => Ok(()),
        }
    }

    /// Does v by itself break condition 2 or 5?
    fn stands_wrong(&self, graph: &Graph, x: Vertex, v: Vertex) -> bool {
        let (inner, into, out, subject) = (self.inner[v], self.into[v], self.out[v], graph.is_subject(v));
        (inner && !(subject && out && into)) || (subject && (out || into) && !inner) || (v == x && subject && !into)
    }

    /// Does a right of v break condition 2, 3 or 4?
    fn breaks(&self, x: Vertex, v: Vertex, right: Right, to: Vertex) -> bool {
        match right {
            TAKE => (self.out[v] && !self.out[to]) || (self.into[to] && !self.into[v]),
            GRANT => (self.out[to] && !self.into[v]) || (self.out[v] && !self.into[to]) || (to == x && !self.into[v]),
            _ => false,
        }
    }
}
