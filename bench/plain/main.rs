//! The programs in plain Rust, to compare their speed with: the same bytes in, the same bytes out.
//!
//! usage: plain book|could|check [all|after] [-o ANSWERS] [FILE]...
//!        plain input KIND ...    (inputs to measure by: inputs.rs says which)
mod ask;
mod check;
mod format;
mod graph;
mod inputs;
mod paths;
mod plan;
mod search;
mod set;
mod sharing;

use format::Fault;
use std::fs::File;
use std::io::{Read, Write};
use std::os::fd::AsFd;
use std::process::ExitCode;

/// What a program prints, and what it writes into the file after `-o`.
pub struct Printed {
    pub lines: Vec<u8>,
    pub answers: Vec<u8>,
}

struct Request {
    program: String,
    mode: Option<String>,
    output: Option<String>,
    files: Vec<String>,
}

fn request() -> Option<Request> {
    let mut args = std::env::args().skip(1).peekable();
    let program = args.next()?;
    let mode = match args.peek() {
        Some(word) if program == "could" && (word == "all" || word == "after") => args.next(),
        _ => None,
    };
    let output = match args.peek() {
        Some(word) if word == "-o" => {
            args.next();
            Some(args.next()?)
        }
        _ => None,
    };
    Some(Request { program, mode, output, files: args.collect() })
}

/// The files one after the other, or standard input where there is none.
fn input(files: &[String]) -> std::io::Result<Vec<u8>> {
    let mut bytes = Vec::new();
    if files.is_empty() {
        std::io::stdin().lock().read_to_end(&mut bytes)?;
    }
    for file in files {
        File::open(file)?.read_to_end(&mut bytes)?;
    }
    Ok(bytes)
}

fn run(request: &Request, bytes: &[u8]) -> Result<Printed, Fault> {
    let plain = |lines| Printed { lines, answers: Vec::new() };
    match (request.program.as_str(), request.mode.as_deref()) {
        ("book", _) => graph::replay(bytes).map(plain),
        ("check", _) => check::check(bytes).map(|()| plain(b"right\n".to_vec())),
        (_, Some("all")) => sharing::print_table(bytes).map(plain),
        (_, Some(_)) => ask::answer_after(bytes).map(plain),
        (_, None) if request.output.is_some() => ask::answer_with_records(bytes),
        (_, None) => ask::answer(bytes).map(plain),
    }
}

fn print_input() -> ExitCode {
    let args: Vec<String> = std::env::args().skip(2).collect();
    let bytes = inputs::make(&args).expect("a kind of input and its numbers");
    std::io::stdout().write_all(&bytes).expect("output");
    ExitCode::SUCCESS
}

fn main() -> ExitCode {
    if std::env::args().nth(1).as_deref() == Some("input") {
        return print_input();
    }
    let Some(request) = request() else {
        eprintln!("usage: plain book|could|check [all|after] [-o ANSWERS] [FILE]...");
        return ExitCode::FAILURE;
    };
    let bytes = input(&request.files).expect("input");
    // Not through the buffer that looks for line ends.
    let mut out = File::from(std::io::stdout().as_fd().try_clone_to_owned().expect("output"));
    match run(&request, &bytes) {
        Ok(printed) => {
            if let Some(file) = &request.output {
                std::fs::write(file, &printed.answers).expect("answers");
            }
            out.write_all(&printed.lines).expect("output");
            ExitCode::SUCCESS
        }
        Err(fault) => {
            let place: Vec<String> = fault.place.iter().map(|n| format!(" {n}")).collect();
            writeln!(out, "{}{}", fault.number, place.concat()).expect("output");
            ExitCode::FAILURE
        }
    }
}
