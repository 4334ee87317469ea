//! The search over single rights from a vertex, each vertex looked at once from each side: the three sets of a sheet.
use crate::graph::{Graph, GRANT, TAKE};
use crate::set::{each, has, lowest, one, Set, Vertex};

/// Take and grant rights from both ends.
pub struct Links {
    pub subjects: Set,
    /// Whom each vertex has take to, and who has take to it.
    pub takes: [Set; 128],
    pub takers: [Set; 128],
    /// Who has grant to each vertex.
    pub granters: [Set; 128],
    /// Who has grant to it, or is granted to by it.
    pub beside: [Set; 128],
}

/// J, O and I of a sheet.
pub struct Barrier {
    pub inner: Set,
    pub out: Set,
    pub into: Set,
}

impl Links {
    pub fn of(graph: &Graph) -> Links {
        let none = [0; 128];
        let mut links = Links { subjects: graph.subjects.narrow(), takes: none, takers: none, granters: none, beside: none };
        for p in 0..graph.size {
            links.takes[p as usize] = graph.targets(p, TAKE);
            each(graph.targets(p, TAKE), |q| links.takers[q as usize] |= one(p));
            each(graph.targets(p, GRANT), |q| links.granters[q as usize] |= one(p));
        }
        for p in 0..graph.size {
            links.beside[p as usize] = graph.targets(p, GRANT) | links.granters[p as usize];
        }
        links
    }

    /// p, if it is a subject.
    fn itself(&self, p: Vertex) -> Set {
        self.subjects & one(p)
    }

    pub fn barrier(&self, x: Vertex) -> Barrier {
        let mut out = 0;
        let mut into = self.granters[x as usize] | self.itself(x);
        let (mut out_todo, mut into_todo) = (out, into);
        loop {
            if out_todo != 0 {
                let p = lowest(out_todo);
                let new_out = self.takes[p as usize] & !out;
                let new_into = (self.beside[p as usize] | self.itself(p)) & !into;
                out |= new_out;
                into |= new_into;
                out_todo = out_todo & (out_todo - 1) | new_out;
                into_todo |= new_into;
            } else if into_todo != 0 {
                let p = lowest(into_todo);
                let new_into = self.takers[p as usize] & !into;
                into |= new_into;
                into_todo = into_todo & (into_todo - 1) | new_into;
                out_todo = self.itself(p) & !out;
                out |= out_todo;
            } else {
                return Barrier { inner: self.subjects & out, out, into };
            }
        }
    }

    /// Who is connected with the subject p.
    pub fn island(&self, p: Vertex) -> Set {
        debug_assert!(has(self.subjects, p));
        self.barrier(p).inner
    }
}
