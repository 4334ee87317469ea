//! Questions as bytes: could x come to have a right to y?

use crate::fault::Fault;
use crate::graph::{Right, Vertex};
use crate::reader::Reader;

pub const QUESTION: u8 = 6;

#[derive(Clone, Copy, PartialEq, Eq, Debug)]
pub struct Question {
    pub x: Vertex,
    pub right: Right,
    pub y: Vertex,
}

pub fn read_question(reader: &mut Reader, n: usize) -> Result<Question, Fault> {
    reader.kind(|kind| kind == QUESTION)?;
    read_behind_kind(reader, n)
}

pub fn read_behind_kind(reader: &mut Reader, n: usize) -> Result<Question, Fault> {
    Ok(Question { x: reader.vertex(n)?, right: reader.right()?, y: reader.vertex(n)? })
}

pub fn question_bytes(question: Question) -> [u8; 4] {
    [QUESTION, question.x as u8, question.right, question.y as u8]
}
