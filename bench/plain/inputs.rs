//! Inputs to measure by, the same in each run.
//!
//! usage: plain input book SIZE CHANCE | halves SIZE CHANCE | chain SIZE
//!        plain input acts|changes BOOK COUNT | questions BOOK yes|no COUNT
//!
//! CHANCE is one in how many for each right of each vertex to each other. Three in four are subjects.
use crate::format::{write_book, Question, Reader};
use crate::graph::{Graph, Rule, GRANT, TAKE};
use crate::set::{Vertex, Wide};
use crate::sharing::Sharing;

struct Random(u64);

impl Random {
    fn below(&mut self, n: usize) -> usize {
        self.0 ^= self.0 << 13;
        self.0 ^= self.0 >> 7;
        self.0 ^= self.0 << 17;
        (self.0 >> 11) as usize % n
    }

    fn member(&mut self, set: &Wide) -> Option<Vertex> {
        let mut all = [0; 256];
        let mut len = 0;
        set.each(|v| {
            all[len] = v;
            len += 1;
        });
        (len > 0).then(|| all[self.below(len)])
    }
}

/// A book at random, in which nobody has a right to one of another part.
fn random_book(random: &mut Random, size: u8, chance: usize, parts: usize) -> Graph {
    let part = |v: u8| v as usize * parts / size as usize;
    let mut graph = Graph::new(size, Wide::default());
    for p in 0..size {
        if p % 4 != 3 {
            graph.subjects.insert(p);
        }
        for right in 0..8 {
            for q in 0..size {
                if random.below(chance) == 0 && part(p) == part(q) {
                    graph.rows[p as usize][right].insert(q);
                }
            }
        }
    }
    graph
}

/// Subjects in a row, each with grant to the next; the last has right 2 to the first.
fn chain(size: u8) -> Graph {
    let mut graph = Graph::new(size, Wide::default());
    for p in 0..size {
        graph.subjects.insert(p);
        if p + 1 < size {
            graph.rows[p as usize][GRANT as usize].insert(p + 1);
        }
    }
    graph.rows[size as usize - 1][2].insert(0);
    graph
}

/// A take or a grant that may be done, or none if the first choice leads nowhere.
fn transfer(random: &mut Random, graph: &Graph) -> Option<Rule> {
    let who = random.member(&graph.subjects)?;
    let right = random.below(8) as u8;
    if random.below(2) == 0 {
        let from = random.member(&graph.rows[who as usize][TAKE as usize])?;
        let to = random.member(&graph.rows[from as usize][right as usize])?;
        Some(Rule::Take { who, from, right, to })
    } else {
        let into = random.member(&graph.rows[who as usize][GRANT as usize])?;
        let to = random.member(&graph.rows[who as usize][right as usize])?;
        Some(Rule::Grant { who, into, right, to })
    }
}

/// A removal of what somebody has, of one of the rights from `first` on.
fn removal(random: &mut Random, graph: &Graph, first: u8) -> Option<Rule> {
    let who = random.member(&graph.subjects)?;
    let right = first + random.below(8 - first as usize) as u8;
    let to = random.member(&graph.rows[who as usize][right as usize])?;
    Some(Rule::Remove { who, right, to })
}

/// Nine takes and grants to a removal, and none of a take or grant right, so that they stay possible.
fn day(random: &mut Random, graph: &Graph) -> Option<Rule> {
    if random.below(10) == 0 { removal(random, graph, 2) } else { transfer(random, graph) }
}

/// How many rights there are.
fn held(graph: &Graph) -> usize {
    graph.rows.iter().flatten().map(Wide::len).sum()
}

/// A removal of what may not be held: it may always be done.
fn any_removal(random: &mut Random, graph: &Graph) -> Option<Rule> {
    let who = random.member(&graph.subjects)?;
    Some(Rule::Remove { who, right: random.below(8) as u8, to: random.below(graph.size as usize) as u8 })
}

/// An act that leaves the book about as dense as it was. Now and then somebody is made, while a question may be asked.
fn change(random: &mut Random, graph: &Graph, dense: usize) -> Option<Rule> {
    if graph.size < 128 && random.below(200) == 0 {
        let who = random.member(&graph.subjects)?;
        return Some(Rule::Create { who, subject: random.below(4) != 3, rights: random.below(256) as u8 });
    }
    let full = held(graph) > dense;
    let chosen = (0..50).find_map(|_| if full { removal(random, graph, 0) } else { transfer(random, graph) });
    chosen.or_else(|| any_removal(random, graph))
}

fn write_act(rule: &Rule, out: &mut Vec<u8>) {
    match *rule {
        Rule::Take { who, from, right, to } => out.extend([2, who, from, right, to]),
        Rule::Grant { who, into, right, to } => out.extend([3, who, into, right, to]),
        Rule::Create { who, subject, rights } => out.extend([4, who, subject as u8, rights]),
        Rule::Remove { who, right, to } => out.extend([5, who, right, to]),
    }
}

fn question(random: &mut Random, size: u8) -> Question {
    let n = size as usize;
    Question { holder: random.below(n) as u8, right: random.below(8) as u8, target: random.below(n) as u8 }
}

fn write_question(q: Question, out: &mut Vec<u8>) {
    out.extend([6, q.holder, q.right, q.target]);
}

/// So many acts, each chosen of the book as it is by then; with a question after each if asked for.
fn acts(random: &mut Random, mut graph: Graph, count: usize, asks: bool) -> Vec<u8> {
    let mut out = Vec::new();
    let mut done = 0;
    let dense = held(&graph);
    while done < count {
        let rule = if asks { change(random, &graph, dense) } else { day(random, &graph) };
        let Some(rule) = rule else { continue };
        if graph.apply(&rule).is_ok() {
            write_act(&rule, &mut out);
            if asks {
                write_question(question(random, graph.size), &mut out);
            }
            done += 1;
        }
    }
    out
}

/// So many questions with this answer, none about a right that is held already.
fn questions(random: &mut Random, graph: &Graph, yes: bool, count: usize) -> Vec<u8> {
    let sharing = Sharing::of(graph);
    let mut out = Vec::new();
    let mut tries = 0;
    while out.len() < 4 * count && tries < 10_000_000 {
        let q = question(random, graph.size);
        if sharing.can_share(q.holder, q.right, q.target) == yes && !graph.has(q.holder, q.right, q.target) {
            write_question(q, &mut out);
        }
        tries += 1;
    }
    out
}

/// The bytes of one input. None if what is asked for isn't understood.
pub fn make(args: &[String]) -> Option<Vec<u8>> {
    let mut random = Random(88172645463325252);
    let number = |i: usize| args.get(i)?.parse::<usize>().ok();
    let book = |file: &String| Reader::new(&std::fs::read(file).ok()?).book().ok();
    match args.first()?.as_str() {
        "book" => Some(write_book(&random_book(&mut random, number(1)? as u8, number(2)?, 1))),
        "halves" => Some(write_book(&random_book(&mut random, number(1)? as u8, number(2)?, 2))),
        "chain" => Some(write_book(&chain(number(1)? as u8))),
        "acts" => Some(acts(&mut random, book(args.get(1)?)?, number(2)?, false)),
        "changes" => Some(acts(&mut random, book(args.get(1)?)?, number(2)?, true)),
        "questions" => Some(questions(&mut random, &book(args.get(1)?)?, args.get(2)? == "yes", number(3)?)),
        _ => None,
    }
}
