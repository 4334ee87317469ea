//! Answers as bytes: the plan of a yes, the sheet of a no; and are they right?

use crate::act::{act_bytes, apply_act, is_act};
use crate::certificate::Certificate;
use crate::fault::Fault;
use crate::graph::Graph;
use crate::question::Question;
use crate::reader::{set_bytes, Reader};
use crate::rules::Rule;
use crate::spans::Spans;
use crate::witness::{longest, witness};

pub const YES: u8 = 16;
pub const NO: u8 = 17;
/// In how many bytes each set of a sheet stands.
pub const SET: usize = 32;

pub enum Answer {
    Yes(Vec<Rule>),
    No(Certificate),
}

/// The answer to a question, exactly.
pub fn answer(spans: &Spans, question: Question) -> Answer {
    match witness(spans, question.x, question.right, question.y) {
        Some(rules) => Answer::Yes(rules),
        None => Answer::No(Certificate::of(spans, question.x)),
    }
}

impl Answer {
    pub fn is_yes(&self) -> bool {
        matches!(self, Answer::Yes(_))
    }

    pub fn bytes(&self) -> Vec<u8> {
        match self {
            Answer::Yes(rules) => plan_bytes(rules),
            Answer::No(certificate) => sheet_bytes(certificate),
        }
    }
}

pub fn plan_bytes(rules: &[Rule]) -> Vec<u8> {
    let mut out = vec![YES];
    out.extend((rules.len() as u32).to_be_bytes());
    out.extend(rules.iter().flat_map(|&rule| act_bytes(rule)));
    out
}

pub fn sheet_bytes(certificate: &Certificate) -> Vec<u8> {
    let mut out = vec![NO];
    for set in [&certificate.inner, &certificate.into, &certificate.out] {
        out.extend(set_bytes(SET, set));
    }
    out
}

/// Reads an answer to the end of the input: is it right?
pub fn check_answer(reader: &mut Reader, graph: Graph, question: Question) -> Result<(), Fault> {
    match reader.kind(|kind| kind == YES || kind == NO)? {
        YES => check_plan(reader, graph, question),
        _ => check_sheet(reader, &graph, question),
    }
}

fn check_plan(reader: &mut Reader, mut graph: Graph, question: Question) -> Result<(), Fault> {
    let count = reader.number(4)?;
    if count > longest(graph.size()) {
        return Err(Fault::NotReached { count });
    }
    for act in 0..count {
        let kind = reader.kind(is_act)?;
        apply_act(reader, kind, &mut graph, act)?;
    }
    reader.end()?;
    if graph.has(question.x, question.right, question.y) {
        Ok(())
    } else {
        Err(Fault::NotReached { count })
    }
}

fn check_sheet(reader: &mut Reader, graph: &Graph, question: Question) -> Result<(), Fault> {
    let mut set = || reader.set(SET, graph.size(), |offset| Fault::SetNotThere { offset });
    let certificate = Certificate { inner: set()?, into: set()?, out: set()? };
    reader.end()?;
    certificate.check(graph, question.x, question.right, question.y)
}
