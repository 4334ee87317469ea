//! Faults, each with its place.

use crate::graph::{Right, Vertex};

#[derive(Clone, Copy, PartialEq, Eq, Debug)]
pub enum Fault {
    Malformed { offset: usize },
    NotThere { offset: usize },
    NotRising { offset: usize },
    NotAllowed { act: usize },
    TooManyVertices { act: usize },
    SetNotThere { offset: usize },
    Held { x: Vertex },
    Broken { vertex: Vertex, held: Option<(Right, Vertex)> },
    OutHolds { vertex: Vertex },
    NotReached { count: usize },
}

impl Fault {
    /// Its number and its place, as a program prints them.
    pub fn line(self) -> String {
        match self {
            Fault::Malformed { offset } => format!("1 {offset}\n"),
            Fault::NotThere { offset } => format!("2 {offset}\n"),
            Fault::NotRising { offset } => format!("3 {offset}\n"),
            Fault::NotAllowed { act } => format!("4 {act}\n"),
            Fault::TooManyVertices { act } => format!("5 {act}\n"),
            Fault::SetNotThere { offset } => format!("6 {offset}\n"),
            Fault::Held { x } => format!("7 {x}\n"),
            Fault::Broken { vertex, held: None } => format!("8 {vertex}\n"),
            Fault::Broken { vertex, held: Some((right, to)) } => format!("8 {vertex} {right} {to}\n"),
            Fault::OutHolds { vertex } => format!("9 {vertex}\n"),
            Fault::NotReached { count } => format!("10 {count}\n"),
        }
    }
}
