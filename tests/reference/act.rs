//! Acts as bytes, read of a graph as it is by then, and applied to it.

use crate::fault::Fault;
use crate::graph::Graph;
use crate::reader::Reader;
use crate::rules::{Refusal, Rule};

const TAKE: u8 = 2;
const PUT: u8 = 3;
const MAKE: u8 = 4;
const DROP: u8 = 5;

pub fn is_act(kind: u8) -> bool {
    (TAKE..=DROP).contains(&kind)
}

/// What stands behind an act's kind.
pub fn read_act(reader: &mut Reader, kind: u8, n: usize) -> Result<Rule, Fault> {
    let who = reader.vertex(n)?;
    Ok(match kind {
        TAKE => Rule::Take { who, from: reader.vertex(n)?, right: reader.right()?, to: reader.vertex(n)? },
        PUT => Rule::Grant { who, into: reader.vertex(n)?, right: reader.right()?, to: reader.vertex(n)? },
        MAKE => Rule::Create { who, subject: reader.kind(|acting| acting <= 1)? == 1, rights: reader.byte()? },
        _ => Rule::Remove { who, right: reader.right()?, to: reader.vertex(n)? },
    })
}

/// Reads the act behind its kind, and applies it; it is the act with this number.
pub fn apply_act(reader: &mut Reader, kind: u8, graph: &mut Graph, act: usize) -> Result<(), Fault> {
    let rule = read_act(reader, kind, graph.size())?;
    graph.apply(rule).map_err(|refusal| match refusal {
        Refusal::NotAllowed => Fault::NotAllowed { act },
        Refusal::TooManyVertices => Fault::TooManyVertices { act },
    })
}

pub fn act_bytes(rule: Rule) -> Vec<u8> {
    match rule {
        Rule::Take { who, from, right, to } => vec![TAKE, who as u8, from as u8, right, to as u8],
        Rule::Grant { who, into, right, to } => vec![PUT, who as u8, into as u8, right, to as u8],
        Rule::Create { who, subject, rights } => vec![MAKE, who as u8, u8::from(subject), rights],
        Rule::Remove { who, right, to } => vec![DROP, who as u8, right, to as u8],
    }
}
