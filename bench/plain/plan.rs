//! The plan of a yes, act by act.
use crate::format::Question;
use crate::graph::{Graph, GRANT, TAKE};
use crate::paths::{bridges, lead, turned, Steps};
use crate::search::{Barrier, Links};
use crate::set::{gather, has, lowest, one, Set, Vertex, Wide};

/// What plans are chosen from, of the book at the question.
pub struct Routes<'a> {
    graph: &'a Graph,
    links: Links,
    /// Where take paths lead to from each vertex, and from where they lead to it.
    from: [Set; 128],
    to: [Set; 128],
    bridges: [Set; 128],
}

impl<'a> Routes<'a> {
    pub fn of(graph: &'a Graph) -> Routes<'a> {
        let links = Links::of(graph);
        let from = lead(&links, graph.size);
        let to = turned(&from, graph.size);
        let bridges = bridges(&links, &from, &to);
        Routes { graph, links, from, to, bridges }
    }

    fn takes(&self) -> Steps<'_> {
        Steps { ahead: &self.links.takes, back: &self.links.takers }
    }

    fn rows(&self) -> Steps<'_> {
        Steps { ahead: &self.bridges, back: &self.bridges }
    }

    pub fn barrier(&self, x: Vertex) -> Barrier {
        self.links.barrier(x)
    }

    /// Who has the right to y.
    fn holders(&self, right: u8, y: Vertex) -> Set {
        let mut set = 0;
        for t in 0..self.graph.size {
            set |= (self.graph.has(t, right, y) as u128) << t;
        }
        set
    }

    /// The lowest vertex on a take path from p that is beside one on a take path from q, and the lowest such one.
    fn meeting(&self, p: Vertex, q: Vertex) -> (Vertex, Vertex) {
        let mut rest = self.from[p as usize];
        loop {
            let u = lowest(rest);
            let met = self.links.beside[u as usize] & self.from[q as usize];
            if met != 0 {
                return (u, lowest(met));
            }
            rest &= rest - 1;
        }
    }
}

/// What gets over the row: who has the right, who gets at it, and who hands it to x at last.
struct Ends {
    holder: Vertex,
    last: Vertex,
    first: Vertex,
}

impl Routes<'_> {
    fn ends(&self, question: Question, barrier: &Barrier) -> Option<Ends> {
        let x = question.holder;
        let reached = self.holders(question.right, question.target) & barrier.out;
        if reached == 0 {
            return None;
        }
        let holder = lowest(reached);
        let last = lowest(self.to[holder as usize] & barrier.inner);
        let initial = gather(&self.to, self.links.granters[x as usize]) | one(x);
        let first = lowest(initial & self.links.island(last));
        Some(Ends { holder, last, first })
    }
}

/// The plans of many questions, one after the other. The graph after the acts of a plan is the first one again when it is done.
pub struct Plans<'a> {
    routes: &'a Routes<'a>,
    graph: Graph,
    /// The rights that the acts brought.
    brought: Vec<(Vertex, u8, Vertex)>,
}

impl<'a> Plans<'a> {
    pub fn new(routes: &'a Routes<'a>) -> Plans<'a> {
        let Graph { size, subjects, rows } = routes.graph;
        Plans { routes, graph: Graph { size: *size, subjects: *subjects, rows: rows.clone() }, brought: Vec::new() }
    }

    /// Writes the plan for a question, if its answer is yes. If it is no, what the answer is: its barrier.
    pub fn write(&mut self, question: Question, out: &mut Vec<u8>) -> Result<(), Barrier> {
        let Question { holder, right, target } = question;
        if self.graph.has(holder, right, target) {
            out.extend([16, 0, 0, 0, 0]);
            return Ok(());
        }
        let barrier = self.routes.barrier(holder);
        let Some(ends) = self.routes.ends(question, &barrier) else {
            return Err(barrier);
        };
        let start = out.len();
        out.extend([16, 0, 0, 0, 0]);
        let mut plan = Plan { routes: self.routes, graph: &mut self.graph, brought: &mut self.brought, right, target, acts: 0, out };
        plan.carry(ends, holder);
        let acts = plan.acts;
        out[start + 1..start + 5].copy_from_slice(&acts.to_be_bytes());
        self.undo();
        Ok(())
    }

    fn undo(&mut self) {
        for (p, right, q) in self.brought.drain(..) {
            self.graph.rows[p as usize][right as usize].remove(q);
        }
        self.graph.size = self.routes.graph.size;
    }
}

/// The plan of one question as it is written.
struct Plan<'a> {
    routes: &'a Routes<'a>,
    graph: &'a mut Graph,
    brought: &'a mut Vec<(Vertex, u8, Vertex)>,
    right: u8,
    target: Vertex,
    acts: u32,
    out: &'a mut Vec<u8>,
}

impl Plan<'_> {
    fn bring(&mut self, p: Vertex, right: u8, q: Vertex) {
        let row: &mut Wide = &mut self.graph.rows[p as usize][right as usize];
        if !row.has(q) {
            row.insert(q);
            self.brought.push((p, right, q));
        }
    }

    fn take_unless_held(&mut self, p: Vertex, from: Vertex, right: u8, q: Vertex) {
        if !self.graph.has(p, right, q) {
            self.bring(p, right, q);
            self.out.extend([2, p, from, right, q]);
            self.acts += 1;
        }
    }

    fn grant(&mut self, p: Vertex, into: Vertex, right: u8, q: Vertex) {
        self.bring(into, right, q);
        self.out.extend([3, p, into, right, q]);
        self.acts += 1;
    }

    /// p makes an object to which it has take and grant.
    fn create(&mut self, p: Vertex) -> Vertex {
        let new = self.graph.size;
        self.graph.size += 1;
        self.bring(p, TAKE, new);
        self.bring(p, GRANT, new);
        self.out.extend([4, p, 0, 3]);
        self.acts += 1;
        new
    }

    /// p takes along its path to y until it has the right to z.
    fn take_to(&mut self, p: Vertex, y: Vertex, right: u8, z: Vertex) {
        let path = self.routes.takes().shortest(p, y);
        let mut at = p;
        for next in path.vertices() {
            if self.graph.has(p, right, z) {
                return;
            }
            self.take_unless_held(p, at, TAKE, *next);
            at = *next;
        }
        self.take_unless_held(p, at, right, z);
    }

    /// p, whose path leads to u, leaves the right at the object c, and q takes it from there.
    fn leave_at(&mut self, p: Vertex, u: Vertex, c: Vertex, q: Vertex) {
        self.take_to(p, u, GRANT, c);
        self.grant(p, c, self.right, self.target);
        self.take_unless_held(q, c, self.right, self.target);
    }

    /// Over one bridge, from p to q.
    fn over_bridge(&mut self, p: Vertex, q: Vertex) {
        let routes = self.routes;
        if has(routes.from[q as usize], p) {
            return self.take_to(q, p, self.right, self.target);
        }
        if has(routes.from[p as usize], q) {
            let new = self.create(q);
            return self.leave_at(p, q, new, q);
        }
        let (u, v) = routes.meeting(p, q);
        if routes.graph.has(u, GRANT, v) {
            self.take_to(p, u, GRANT, v);
            self.grant(p, v, self.right, self.target);
            self.take_to(q, v, self.right, self.target);
        } else {
            let new = self.create(q);
            self.take_to(q, v, GRANT, u);
            self.grant(q, u, GRANT, new);
            self.leave_at(p, u, new, q);
        }
    }

    /// The right comes from who has it to x.
    fn carry(&mut self, ends: Ends, x: Vertex) {
        self.take_to(ends.last, ends.holder, self.right, self.target);
        let row = self.routes.rows().shortest(ends.last, ends.first);
        let mut at = ends.last;
        for next in row.vertices() {
            self.over_bridge(at, *next);
            at = *next;
        }
        if at != x {
            let u = lowest(self.routes.from[at as usize] & self.routes.links.granters[x as usize]);
            self.take_to(at, u, GRANT, x);
            self.grant(at, x, self.right, self.target);
        }
    }
}
