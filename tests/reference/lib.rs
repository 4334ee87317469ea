//! A reference for the programs `book`, `could` and `check`, in plain Rust. It follows docs/FORMATS.md, and nothing in it
//! is taken from their code. It is clear rather than fast: the programs are run against it.

pub mod act;
pub mod answer;
pub mod book;
pub mod certificate;
pub mod fault;
pub mod graph;
pub mod paths;
pub mod programs;
pub mod question;
pub mod reader;
pub mod rules;
pub mod spans;
pub mod witness;
