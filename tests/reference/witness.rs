//! The exact witness of a yes: the plan of docs/FORMATS.md, act by act.

use crate::graph::{Graph, Right, Vertex, GRANT, TAKE};
use crate::paths::shortest_path;
use crate::rules::Rule;
use crate::spans::Spans;

/// What a created object is there for: to take from it, and to grant to it.
const TAKE_AND_GRANT: u8 = 1 << TAKE | 1 << GRANT;

/// The most acts that a plan may have.
pub fn longest(n: usize) -> usize {
    8 * (n + 2) * (n + 2)
}

struct Plan<'a> {
    /// The graph at the question, by which all is chosen.
    spans: &'a Spans<'a>,
    /// The graph after the rules so far.
    now: Graph,
    rules: Vec<Rule>,
    right: Right,
    to: Vertex,
}

/// The rules by which x comes to have r to y, or nothing if it can't.
pub fn witness(spans: &Spans, x: Vertex, right: Right, to: Vertex) -> Option<Vec<Rule>> {
    if spans.graph.has(x, right, to) {
        return Some(Vec::new());
    }
    let graph = spans.graph;
    let (inner, sources) = (spans.inner(x), spans.sources(x));
    let s = graph.vertices().find(|&s| sources[s] && graph.has(s, right, to))?;
    let q = graph.vertices().find(|&q| inner[q] && spans.terminally(q, s))?;
    let p = graph.vertices().find(|&p| spans.initially(p, x) && spans.connected(p, q))?;
    let row = shortest_path(graph.size(), q, p, |a, b| spans.bridge(a, b))?;

    let mut plan = Plan { spans, now: graph.clone(), rules: Vec::new(), right, to };
    plan.take_along(q, s, right, to);
    for pair in row.windows(2) {
        plan.cross(pair[0], pair[1]);
    }
    if p != x {
        plan.hand_to(p, x);
    }
    Some(plan.rules)
}

impl Plan<'_> {
    fn act(&mut self, rule: Rule) {
        self.now.apply(rule).expect("each rule of a plan may be applied in its turn");
        self.rules.push(rule);
    }

    /// Who takes along the path to `end`, for a right.
    fn take_along(&mut self, who: Vertex, end: Vertex, right: Right, to: Vertex) {
        let graph = self.spans.graph;
        let path =
            shortest_path(graph.size(), who, end, |u, v| graph.has(u, TAKE, v)).expect("a take path leads there");
        for (i, &at) in path.iter().enumerate() {
            if self.now.has(who, right, to) {
                return;
            }
            match path.get(i + 1) {
                Some(&next) => self.take_unless_held(who, at, TAKE, next),
                None => self.act(Rule::Take { who, from: at, right, to }),
            }
        }
    }

    fn take_unless_held(&mut self, who: Vertex, from: Vertex, right: Right, to: Vertex) {
        if !self.now.has(who, right, to) {
            self.act(Rule::Take { who, from, right, to });
        }
    }

    /// Who, having the right, grants it.
    fn grant(&mut self, who: Vertex, into: Vertex) {
        self.act(Rule::Grant { who, into, right: self.right, to: self.to });
    }

    fn create(&mut self, who: Vertex) -> Vertex {
        let new = self.now.size();
        self.act(Rule::Create { who, subject: false, rights: TAKE_AND_GRANT });
        new
    }

    /// Over a bridge: a has the right, and b comes to have it.
    fn cross(&mut self, a: Vertex, b: Vertex) {
        if self.spans.leads(b, a) {
            self.take_along(b, a, self.right, self.to);
        } else if self.spans.leads(a, b) {
            let c = self.create(b);
            self.take_along(a, b, GRANT, c);
            self.grant(a, c);
            self.take_unless_held(b, c, self.right, self.to);
        } else {
            self.cross_by_grant(a, b);
        }
    }

    fn cross_by_grant(&mut self, a: Vertex, b: Vertex) {
        let (graph, spans) = (self.spans.graph, self.spans);
        let (u, v) = graph
            .vertices()
            .filter(|&u| spans.leads(a, u))
            .flat_map(|u| graph.vertices().filter(|&v| spans.leads(b, v)).map(move |v| (u, v)))
            .find(|&(u, v)| graph.has(u, GRANT, v) || graph.has(v, GRANT, u))
            .expect("a bridge joins them");
        if graph.has(u, GRANT, v) {
            self.take_along(a, u, GRANT, v);
            self.grant(a, v);
            self.take_along(b, v, self.right, self.to);
        } else {
            let c = self.create(b);
            self.take_along(b, v, GRANT, u);
            self.act(Rule::Grant { who: b, into: u, right: GRANT, to: c });
            self.take_along(a, u, GRANT, c);
            self.grant(a, c);
            self.take_unless_held(b, c, self.right, self.to);
        }
    }

    /// p, having the right, grants it to x.
    fn hand_to(&mut self, p: Vertex, x: Vertex) {
        let graph = self.spans.graph;
        let u = graph
            .vertices()
            .find(|&u| self.spans.leads(p, u) && graph.has(u, GRANT, x))
            .expect("p spans initially to x");
        self.take_along(p, u, GRANT, x);
        self.grant(p, x);
    }
}
