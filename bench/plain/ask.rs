//! Questions and their answers.
use crate::format::{write_set, Fault, Question, Reader};
use crate::graph::{Graph, Rule, GRANT, TAKE};
use crate::plan::{Plans, Routes};
use crate::search::{Barrier, Links};
use crate::set::{has, one};
use crate::sharing::Sharing;
use crate::Printed;

fn line(yes: bool) -> &'static [u8] {
    if yes { b"yes\n" } else { b"no\n" }
}

/// Questions to the end of the input: all are read before one is answered.
fn questions(reader: &mut Reader, size: u8) -> Result<Vec<Question>, Fault> {
    let mut all = Vec::with_capacity((reader.bytes.len() - reader.at) / 4);
    while !reader.is_done() {
        all.push(reader.question(size)?);
    }
    Ok(all)
}

/// The program could.
pub fn answer(bytes: &[u8]) -> Result<Vec<u8>, Fault> {
    let mut reader = Reader::new(bytes);
    let graph = reader.narrow_book()?;
    let questions = questions(&mut reader, graph.size)?;
    let sharing = Sharing::of(&graph);
    let mut out = Vec::with_capacity(4 * questions.len());
    for q in &questions {
        out.extend_from_slice(line(sharing.can_share(q.holder, q.right, q.target)));
    }
    Ok(out)
}

fn write_sheet(barrier: &Barrier, out: &mut Vec<u8>) {
    out.push(17);
    write_set(barrier.inner, out);
    write_set(barrier.into, out);
    write_set(barrier.out, out);
}

/// The program could with -o.
pub fn answer_with_records(bytes: &[u8]) -> Result<Printed, Fault> {
    let mut reader = Reader::new(bytes);
    let graph = reader.narrow_book()?;
    let questions = questions(&mut reader, graph.size)?;
    let routes = Routes::of(&graph);
    let mut plans = Plans::new(&routes);
    let mut printed = Printed { lines: Vec::with_capacity(4 * questions.len()), answers: Vec::with_capacity(64 * questions.len()) };
    for q in questions {
        let found = plans.write(q, &mut printed.answers);
        printed.lines.extend_from_slice(line(found.is_ok()));
        if let Err(barrier) = found {
            write_sheet(&barrier, &mut printed.answers);
        }
    }
    Ok(printed)
}

/// A book that changes, with its takes and grants from both ends.
struct Changing {
    graph: Graph,
    links: Links,
}

impl Changing {
    /// Follows an act that was done, while there are at most 128 vertices.
    fn follow(&mut self, rule: &Rule) {
        match *rule {
            Rule::Take { who, right, to, .. } => self.relink(who, right, to),
            Rule::Grant { into, right, to, .. } => self.relink(into, right, to),
            Rule::Remove { who, right, to } => self.relink(who, right, to),
            Rule::Create { who, .. } => {
                self.links.subjects = self.graph.subjects.narrow();
                self.relink(who, TAKE, self.graph.size - 1);
                self.relink(who, GRANT, self.graph.size - 1);
            }
        }
    }

    fn relink(&mut self, p: u8, right: u8, q: u8) {
        let set = |row: &mut u128, v: u8, held: bool| *row = if held { *row | one(v) } else { *row & !one(v) };
        let held = self.graph.has(p, right, q);
        let links = &mut self.links;
        if right == TAKE {
            set(&mut links.takes[p as usize], q, held);
            set(&mut links.takers[q as usize], p, held);
        } else if right == GRANT {
            set(&mut links.granters[q as usize], p, held);
            let back = self.graph.has(q, GRANT, p);
            set(&mut links.beside[q as usize], p, held || back);
            set(&mut links.beside[p as usize], q, held || back);
        }
    }

    fn answer(&self, q: Question) -> bool {
        if self.graph.has(q.holder, q.right, q.target) {
            return true;
        }
        let out = self.links.barrier(q.holder).out;
        (0..self.graph.size).any(|t| has(out, t) && self.graph.has(t, q.right, q.target))
    }
}

/// The program could after.
pub fn answer_after(bytes: &[u8]) -> Result<Vec<u8>, Fault> {
    let mut reader = Reader::new(bytes);
    let graph = reader.narrow_book()?;
    let links = Links::of(&graph);
    let mut book = Changing { graph, links };
    let mut out = Vec::with_capacity(bytes.len() / 2);
    let mut number = 0;
    while !reader.is_done() {
        if bytes[reader.at] == 6 {
            if book.graph.size > 128 {
                return Err(Fault::at(2, reader.at));
            }
            let question = reader.question(book.graph.size)?;
            out.extend_from_slice(line(book.answer(question)));
        } else {
            let rule = book.graph.act(&mut reader, number)?;
            if book.graph.size <= 128 {
                book.follow(&rule);
            }
            number += 1;
        }
    }
    Ok(out)
}
