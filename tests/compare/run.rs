//! Runs a program on an input, and compares what it does with the reference.

use crate::random::Random;
use reference::programs::Program;
use std::collections::BTreeMap;
use std::fs::{self, File};
use std::path::{Path, PathBuf};
use std::process::{Command, Stdio};

/// What a run of a program left.
pub struct Seen {
    pub status: Option<i32>,
    pub printed: Vec<u8>,
    pub words: Vec<u8>,
    pub answers: Option<Vec<u8>>,
}

pub struct Runner {
    pub bins: PathBuf,
    /// Where inputs and answers of the runs stand.
    pub work: PathBuf,
    /// Where inputs that differ are left.
    pub failed: PathBuf,
    /// Has `could` the option -o?
    pub writes_answers: bool,
    pub seed: u64,
    pub trial: usize,
    /// How many cases of each kind there were.
    pub counts: BTreeMap<&'static str, usize>,
    /// How many lines that begin with each word the reference printed, of those that aren't bytes of a book or counts.
    pub told: BTreeMap<String, usize>,
    pub differ: usize,
}

/// The program's name, and the words behind it before any file.
pub fn words(program: Program) -> (&'static str, &'static [&'static str]) {
    match program {
        Program::Book => ("book", &[]),
        Program::Could => ("could", &[]),
        Program::CouldAll => ("could", &["all"]),
        Program::CouldAfter => ("could", &["after"]),
        Program::Check => ("check", &[]),
    }
}

impl Runner {
    pub fn count(&mut self, kind: &'static str) {
        *self.counts.entry(kind).or_default() += 1;
    }

    pub fn cases(&self) -> usize {
        self.counts.values().sum()
    }

    pub fn command(&self, program: Program) -> Command {
        let (name, words) = words(program);
        let mut command = Command::new(self.bins.join(name));
        command.args(words).stdin(Stdio::null());
        command
    }

    /// Runs a command, and collects what it left; `answers` is where it may write them.
    pub fn finish(&self, mut command: Command, answers: &Path) -> Seen {
        let output = command.output().unwrap_or_else(|error| panic!("{command:?} can't be run: {error}"));
        Seen {
            status: output.status.code(),
            printed: output.stdout,
            words: output.stderr,
            answers: fs::read(answers).ok(),
        }
    }

    /// One case: the program's output, status, answers and words must be as the reference has them.
    pub fn compare(&mut self, kind: &'static str, program: Program, input: &[u8], random: &mut Random) -> Seen {
        self.count(kind);
        let answers = self.work.join("answers");
        let _ = fs::remove_file(&answers);
        let mut command = self.command(program);
        let writes = self.writes_answers && matches!(program, Program::Could | Program::CouldAfter);
        if writes {
            command.arg("-o").arg(&answers);
        }
        self.give_input(&mut command, input, random);
        let seen = self.finish(command, &answers);

        let expected = match program.run(input) {
            Ok(output) => Seen {
                status: Some(0),
                printed: output.printed,
                words: Vec::new(),
                answers: output.answers.filter(|_| writes),
            },
            Err(fault) => Seen {
                status: Some(1),
                printed: fault.line().into_bytes(),
                words: b"some words\n".to_vec(),
                answers: None,
            },
        };
        if !matches!((program, expected.status), (Program::Book | Program::CouldAll, Some(0))) {
            self.note(&expected.printed);
        }
        let differences = differences(&seen, &expected);
        if !differences.is_empty() {
            self.tell(kind, program, input, &expected, &differences);
        }
        seen
    }

    fn note(&mut self, printed: &[u8]) {
        for line in String::from_utf8_lossy(printed).lines() {
            let first = line.split(' ').next().unwrap_or_default();
            *self.told.entry(first.to_string()).or_default() += 1;
        }
    }

    /// By standard input, or by one to four files.
    fn give_input(&self, command: &mut Command, input: &[u8], random: &mut Random) {
        let parts = if random.chance(30) { 1 } else { random.between(2, 4) };
        let mut ends: Vec<usize> = (1..parts).map(|_| random.below(input.len() + 1)).collect();
        ends.push(input.len());
        ends.sort();
        let by_stdin = parts == 1 && random.chance(50);
        let mut start = 0;
        for (i, end) in ends.into_iter().enumerate() {
            let file = self.work.join(format!("input.{i}"));
            fs::write(&file, &input[start..end]).expect("an input can be written");
            start = end;
            if by_stdin {
                command.stdin(File::open(&file).expect("an input can be read"));
            } else {
                command.arg(&file);
            }
        }
    }

    /// A difference that is found without a run of its own.
    pub fn differs(&mut self, kind: &str, program: Program, input: &[u8], why: &str) {
        let expected = Seen { status: None, printed: Vec::new(), words: Vec::new(), answers: None };
        self.tell(kind, program, input, &expected, &[why.to_string()]);
    }

    fn tell(&mut self, kind: &str, program: Program, input: &[u8], expected: &Seen, differences: &[String]) {
        self.differ += 1;
        fs::create_dir_all(&self.failed).expect("a folder for what differs");
        let base = self.failed.join(format!("{}-{}-{}", self.seed, self.trial, self.differ));
        let file = |ending: &str| base.with_extension(ending);
        fs::write(file("in"), input).expect("the input can be left");
        fs::write(file("out"), &expected.printed).expect("what is expected can be left");
        if let Some(answers) = &expected.answers {
            fs::write(file("answers"), answers).expect("what is expected can be left");
        }
        let (name, words) = words(program);
        let option = if expected.answers.is_some() { " -o ANSWERS" } else { "" };
        println!("{kind}: {}", differences.join("; "));
        println!("  {} {}{option} {}", self.bins.join(name).display(), words.join(" "), file("in").display());
        println!("  again: --seed {} --trial {}", self.seed, self.trial);
    }
}

fn shown(bytes: &[u8]) -> String {
    let text: String = String::from_utf8_lossy(bytes).chars().take(60).collect();
    format!("{text:?}")
}

fn differences(seen: &Seen, expected: &Seen) -> Vec<String> {
    let mut all = Vec::new();
    if seen.status != expected.status {
        all.push(format!("status {:?}, not {:?}", seen.status, expected.status));
    }
    if seen.printed != expected.printed {
        all.push(format!("printed {}, not {}", shown(&seen.printed), shown(&expected.printed)));
    }
    if expected.words.is_empty() && !seen.words.is_empty() {
        all.push(format!("standard error has {}", shown(&seen.words)));
    }
    if !expected.words.is_empty() && !is_line_of_words(&seen.words) {
        all.push(format!("standard error has no line of words but {}", shown(&seen.words)));
    }
    match (&seen.answers, &expected.answers) {
        (Some(_), None) => all.push("answers were written".into()),
        (None, Some(_)) => all.push("no answers were written".into()),
        (seen, expected) if seen != expected => {
            let at = seen.iter().flatten().zip(expected.iter().flatten()).take_while(|(a, b)| a == b).count();
            all.push(format!("the answers differ from byte {at}"));
        }
        _ => {}
    }
    all
}

/// One line, with some words in it.
pub fn is_line_of_words(bytes: &[u8]) -> bool {
    let Ok(text) = std::str::from_utf8(bytes) else {
        return false;
    };
    let words = text.split_whitespace().filter(|word| word.chars().any(char::is_alphabetic)).count();
    text.ends_with('\n') && text.matches('\n').count() == 1 && words >= 3
}
