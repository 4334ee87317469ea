//! The reference as a program: `reference book FILES`, `reference could [all | after] [-o FILE] FILES`, `reference check FILES`.
//! Under a link named `book`, `could` or `check` it is that program.

use reference::programs::Program;
use std::io::{Read, Write};
use std::path::Path;
use std::process::ExitCode;

struct Command {
    program: Program,
    answers: Option<String>,
    files: Vec<String>,
}

fn command(mut words: Vec<String>) -> Result<Command, String> {
    let link =
        Path::new(&words.remove(0)).file_name().map(|name| name.to_string_lossy().into_owned()).unwrap_or_default();
    let name = if ["book", "could", "check"].contains(&link.as_str()) {
        link
    } else if words.is_empty() {
        return Err("which program? book, could or check".into());
    } else {
        words.remove(0)
    };
    let program = match (name.as_str(), words.first().map(String::as_str)) {
        ("book", _) => Program::Book,
        ("could", Some("all")) => Program::CouldAll,
        ("could", Some("after")) => Program::CouldAfter,
        ("could", _) => Program::Could,
        ("check", _) => Program::Check,
        _ => return Err(format!("{name}: no such program")),
    };
    if matches!(program, Program::CouldAll | Program::CouldAfter) {
        words.remove(0);
    }
    let mut answers = None;
    if matches!(program, Program::Could | Program::CouldAfter) && words.first().is_some_and(|word| word == "-o") {
        answers = Some(words.get(1).cloned().ok_or("-o wants a file behind it")?);
        words.drain(..2);
    }
    match words.iter().find(|word| word.starts_with('-')) {
        Some(word) => Err(format!("there is no option {word}")),
        None => Ok(Command { program, answers, files: words }),
    }
}

fn input(files: &[String]) -> Result<Vec<u8>, String> {
    let mut bytes = Vec::new();
    if files.is_empty() {
        std::io::stdin().read_to_end(&mut bytes).map_err(|error| error.to_string())?;
    }
    for file in files {
        bytes.extend(std::fs::read(file).map_err(|error| format!("{file}: {error}"))?);
    }
    Ok(bytes)
}

const HELP: &str = "\
reference does what the programs book, could and check do, in plain Rust.

usage: reference book [FILE]...
       reference could [all | after] [-o FILE] [FILE]...
       reference check [FILE]...

Under a link named book, could or check it is that program.

example: reference could -o answers chamber.book one.question && reference check chamber.book one.question answers
";

fn run() -> Result<ExitCode, String> {
    if std::env::args().any(|word| word == "--help" || word == "-h") {
        print!("{HELP}");
        return Ok(ExitCode::SUCCESS);
    }
    let command = command(std::env::args().collect())?;
    let printed = match command.program.run(&input(&command.files)?) {
        Err(fault) => {
            eprintln!("the input has a fault: {fault:?}");
            print!("{}", fault.line());
            return Ok(ExitCode::FAILURE);
        }
        Ok(output) => {
            if let (Some(file), Some(answers)) = (&command.answers, output.answers) {
                std::fs::write(file, answers).map_err(|error| format!("{file}: {error}"))?;
            }
            output.printed
        }
    };
    std::io::stdout().write_all(&printed).map_err(|error| error.to_string())?;
    Ok(ExitCode::SUCCESS)
}

fn main() -> ExitCode {
    run().unwrap_or_else(|words| {
        eprintln!("{words}");
        ExitCode::FAILURE
    })
}
