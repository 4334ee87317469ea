//! Take, grant, create and remove: one step of one subject.

use crate::graph::{Graph, Right, Vertex, GRANT, MOST, RIGHTS, TAKE};

#[derive(Clone, Copy, PartialEq, Eq, Debug)]
pub enum Rule {
    Take { who: Vertex, from: Vertex, right: Right, to: Vertex },
    Grant { who: Vertex, into: Vertex, right: Right, to: Vertex },
    Create { who: Vertex, subject: bool, rights: u8 },
    Remove { who: Vertex, right: Right, to: Vertex },
}

#[derive(Clone, Copy, PartialEq, Eq, Debug)]
pub enum Refusal {
    NotAllowed,
    TooManyVertices,
}

impl Rule {
    pub fn who(self) -> Vertex {
        match self {
            Rule::Take { who, .. } | Rule::Grant { who, .. } | Rule::Create { who, .. } | Rule::Remove { who, .. } => {
                who
            }
        }
    }
}

impl Graph {
    /// May the rule be applied, but for the number of vertices?
    pub fn allows(&self, rule: Rule) -> bool {
        self.is_subject(rule.who())
            && match rule {
                Rule::Take { who, from, right, to } => self.has(who, TAKE, from) && self.has(from, right, to),
                Rule::Grant { who, into, right, to } => self.has(who, GRANT, into) && self.has(who, right, to),
                Rule::Create { .. } | Rule::Remove { .. } => true,
            }
    }

    /// Applies a rule; one that may not be applied changes nothing.
    pub fn apply(&mut self, rule: Rule) -> Result<(), Refusal> {
        if !self.allows(rule) {
            return Err(Refusal::NotAllowed);
        }
        match rule {
            Rule::Take { who, right, to, .. } => self.give(who, right, to),
            Rule::Grant { into, right, to, .. } => self.give(into, right, to),
            Rule::Remove { who, right, to } => self.withdraw(who, right, to),
            Rule::Create { who, subject, rights } => {
                if self.size() == MOST {
                    return Err(Refusal::TooManyVertices);
                }
                let new = self.add(subject);
                for r in (0..RIGHTS).filter(|r| rights >> r & 1 == 1) {
                    self.give(who, r, new);
                }
            }
        }
        Ok(())
    }
}
