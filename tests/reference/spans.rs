//! Take paths, bridges, connected subjects, spans, and who can share what.

use crate::graph::{Graph, Right, Vertex, GRANT, TAKE};
use crate::paths::reached;

pub struct Spans<'a> {
    pub graph: &'a Graph,
    /// leads[x][y]: a take path leads from x to y.
    leads: Vec<Vec<bool>>,
    /// bridges[p][q], for subjects.
    bridges: Vec<Vec<bool>>,
    /// connected[p][q], for subjects.
    connected: Vec<Vec<bool>>,
}

impl<'a> Spans<'a> {
    pub fn of(graph: &'a Graph) -> Spans<'a> {
        let n = graph.size();
        let leads: Vec<Vec<bool>> = graph.vertices().map(|x| reached(n, [x], |u, v| graph.has(u, TAKE, v))).collect();
        let bridges: Vec<Vec<bool>> = graph.vertices().map(|p| bridges_from(graph, &leads, p)).collect();
        let connected = graph
            .vertices()
            .map(|p| if graph.is_subject(p) { reached(n, [p], |a, b| bridges[a][b]) } else { vec![false; n] })
            .collect();
        Spans { graph, leads, bridges, connected }
    }

    pub fn leads(&self, x: Vertex, y: Vertex) -> bool {
        self.leads[x][y]
    }

    pub fn bridge(&self, p: Vertex, q: Vertex) -> bool {
        self.bridges[p][q]
    }

    pub fn connected(&self, p: Vertex, q: Vertex) -> bool {
        self.connected[p][q]
    }

    pub fn initially(&self, p: Vertex, x: Vertex) -> bool {
        self.graph.is_subject(p)
            && (p == x || self.graph.vertices().any(|u| self.leads[p][u] && self.graph.has(u, GRANT, x)))
    }

    pub fn terminally(&self, q: Vertex, s: Vertex) -> bool {
        self.graph.is_subject(q) && self.leads[q][s]
    }

    /// The subjects connected with one that spans initially to x.
    pub fn inner(&self, x: Vertex) -> Vec<bool> {
        let first: Vec<Vertex> = self.graph.subjects().filter(|&p| self.initially(p, x)).collect();
        self.graph.vertices().map(|q| first.iter().any(|&p| self.connected[p][q])).collect()
    }

    /// The vertices to which one of the inner subjects of x spans terminally: whatever one of these has, x can come to have.
    pub fn sources(&self, x: Vertex) -> Vec<bool> {
        let inner = self.inner(x);
        self.graph.vertices().map(|s| self.graph.vertices().any(|q| inner[q] && self.terminally(q, s))).collect()
    }

    pub fn can_share(&self, x: Vertex, r: Right, y: Vertex) -> bool {
        self.can_share_from(&self.sources(x), x, r, y)
    }

    /// As `can_share`, where the sources of x are known.
    pub fn can_share_from(&self, sources: &[bool], x: Vertex, r: Right, y: Vertex) -> bool {
        self.graph.has(x, r, y) || self.graph.vertices().any(|s| sources[s] && self.graph.has(s, r, y))
    }
}

/// Which subjects a bridge joins with p, if p is one.
fn bridges_from(graph: &Graph, leads: &[Vec<bool>], p: Vertex) -> Vec<bool> {
    let beside: Vec<bool> = graph
        .vertices()
        .map(|v| graph.vertices().any(|u| leads[p][u] && (graph.has(u, GRANT, v) || graph.has(v, GRANT, u))))
        .collect();
    let joins = |q: Vertex| leads[p][q] || leads[q][p] || graph.vertices().any(|v| leads[q][v] && beside[v]);
    graph.vertices().map(|q| graph.is_subject(p) && graph.is_subject(q) && joins(q)).collect()
}
