//! The programs, from input to output.

use crate::act::{apply_act, is_act};
use crate::answer::{answer, check_answer};
use crate::book::{read_any_book, read_book, write_book};
use crate::fault::Fault;
use crate::graph::{Graph, MOST_ASKED, RIGHTS};
use crate::question::{self, read_question, Question, QUESTION};
use crate::reader::Reader;
use crate::spans::Spans;

#[derive(Clone, Copy, PartialEq, Eq, Debug)]
pub enum Program {
    Book,
    Could,
    CouldAll,
    CouldAfter,
    Check,
}

/// What a program prints; and what it writes into the file of `-o`, where it has that option.
#[derive(Default)]
pub struct Output {
    pub printed: Vec<u8>,
    pub answers: Option<Vec<u8>>,
}

impl Program {
    pub fn run(self, input: &[u8]) -> Result<Output, Fault> {
        let print = |printed: Vec<u8>| Output { printed, answers: None };
        match self {
            Program::Book => book(input).map(print),
            Program::Could => could(input),
            Program::CouldAll => could_all(input).map(print),
            Program::CouldAfter => could_after(input),
            Program::Check => check(input).map(print),
        }
    }
}

fn book(input: &[u8]) -> Result<Vec<u8>, Fault> {
    let mut reader = Reader::new(input);
    let mut graph = read_any_book(&mut reader)?;
    let mut act = 0;
    while !reader.at_end() {
        let kind = reader.kind(is_act)?;
        apply_act(&mut reader, kind, &mut graph, act)?;
        act += 1;
    }
    Ok(write_book(&graph))
}

fn could(input: &[u8]) -> Result<Output, Fault> {
    let mut reader = Reader::new(input);
    let graph = read_book(&mut reader)?;
    let mut questions = Vec::new();
    while !reader.at_end() {
        questions.push(read_question(&mut reader, graph.size())?);
    }
    let mut output = Output { printed: Vec::new(), answers: Some(Vec::new()) };
    output.answer(&Spans::of(&graph), &questions);
    Ok(output)
}

fn could_all(input: &[u8]) -> Result<Vec<u8>, Fault> {
    let mut reader = Reader::new(input);
    let graph = read_book(&mut reader)?;
    reader.end()?;
    let spans = Spans::of(&graph);
    let sources: Vec<Vec<bool>> = graph.vertices().map(|x| spans.sources(x)).collect();
    let count = |r, y| graph.vertices().filter(|&x| spans.can_share_from(&sources[x], x, r, y)).count();
    let line = |y| (0..RIGHTS).map(|r| count(r, y).to_string()).collect::<Vec<_>>().join(" ") + "\n";
    Ok(graph.vertices().map(line).collect::<String>().into_bytes())
}

fn could_after(input: &[u8]) -> Result<Output, Fault> {
    let mut output = Output { printed: Vec::new(), answers: Some(Vec::new()) };
    for (then, questions) in asked_after(input)? {
        output.answer(&Spans::of(&then), &questions);
    }
    Ok(output)
}

/// The questions of an input of `could after`, with the graph as it is then; those about the same graph together.
pub fn asked_after(input: &[u8]) -> Result<Vec<(Graph, Vec<Question>)>, Fault> {
    let mut reader = Reader::new(input);
    let mut graph = read_book(&mut reader)?;
    let mut asked: Vec<(Graph, Vec<Question>)> = Vec::new();
    let mut act = 0;
    while !reader.at_end() {
        let offset = reader.offset;
        let kind = reader.kind(|kind| is_act(kind) || kind == QUESTION)?;
        if kind != QUESTION {
            apply_act(&mut reader, kind, &mut graph, act)?;
            act += 1;
            continue;
        }
        if graph.size() > MOST_ASKED {
            return Err(Fault::NotThere { offset });
        }
        let question = question::read_behind_kind(&mut reader, graph.size())?;
        match asked.last_mut() {
            Some((then, questions)) if *then == graph => questions.push(question),
            _ => asked.push((graph.clone(), vec![question])),
        }
    }
    Ok(asked)
}

impl Output {
    fn answer(&mut self, spans: &Spans, questions: &[Question]) {
        for &question in questions {
            let answer = answer(spans, question);
            self.printed.extend(if answer.is_yes() { &b"yes\n"[..] } else { &b"no\n"[..] });
            self.answers.get_or_insert_default().extend(answer.bytes());
        }
    }
}

fn check(input: &[u8]) -> Result<Vec<u8>, Fault> {
    let mut reader = Reader::new(input);
    let graph = read_book(&mut reader)?;
    let question = read_question(&mut reader, graph.size())?;
    check_answer(&mut reader, graph, question)?;
    Ok(b"right\n".to_vec())
}
