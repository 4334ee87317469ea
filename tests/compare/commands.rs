//! Command lines: help, options that aren't there, files that can't be read or written.

use crate::run::{is_line_of_words, Runner, Seen};
use reference::book::write_book;
use reference::graph::Graph;
use std::fs;
use std::path::{Path, PathBuf};
use std::process::{Command, Stdio};

const PROGRAMS: [&str; 3] = ["book", "could", "check"];

struct CommandLines<'a> {
    runner: &'a mut Runner,
    answers: PathBuf,
}

pub fn command_lines(runner: &mut Runner, after: bool) {
    let answers = runner.work.join("answers");
    let mut lines = CommandLines { runner, answers };
    for name in PROGRAMS {
        lines.help(name);
        lines.refusals(name);
    }
    lines.subcommand("all");
    if after {
        lines.subcommand("after");
    }
    if lines.runner.writes_answers {
        lines.answers_of(&["could"]);
        if after {
            lines.answers_of(&["could", "after"]);
        }
    }
}

impl CommandLines<'_> {
    /// Runs a command line, and tells what `wrong` finds.
    fn run(&mut self, line: &[&str], wrong: impl Fn(&Seen) -> Vec<&'static str>) {
        self.runner.count("command lines");
        let mut command = Command::new(self.runner.bins.join(line[0]));
        command.args(&line[1..]).stdin(Stdio::null());
        let seen = self.runner.finish(command, &self.answers.clone());
        let wrong = wrong(&seen);
        if !wrong.is_empty() {
            self.runner.differ += 1;
            println!("command lines: {}: {}", line.join(" "), wrong.join("; "));
        }
    }

    fn help(&mut self, name: &str) {
        for option in ["--help", "-h"] {
            self.run(&[name, option], |seen| {
                let text = String::from_utf8_lossy(&seen.printed).into_owned();
                let (first, last) = (text.lines().next().unwrap_or(""), text.trim_end().lines().last().unwrap_or(""));
                let mut wrong = Vec::new();
                if seen.status != Some(0) || !seen.words.is_empty() {
                    wrong.push("status isn't 0, or something is on standard error");
                }
                if !first.ends_with('.') || first.split_whitespace().count() < 4 {
                    wrong.push("help doesn't begin with a sentence");
                }
                if !last.contains(&format!("{name} ")) || last.ends_with('.') {
                    wrong.push("help doesn't end with an example");
                }
                wrong
            });
        }
    }

    fn refused(&mut self, line: &[&str]) {
        self.run(line, |seen| {
            let mut wrong = Vec::new();
            if seen.status != Some(1) {
                wrong.push("status isn't 1");
            }
            if !seen.printed.is_empty() {
                wrong.push("something is printed");
            }
            if !is_line_of_words(&seen.words) {
                wrong.push("standard error has no line of words");
            }
            if seen.answers.is_some() {
                wrong.push("answers were written");
            }
            wrong
        });
    }

    fn written(&self, name: &str, bytes: &[u8]) -> String {
        let file = self.runner.work.join(name);
        fs::write(&file, bytes).expect("an input can be written");
        file.display().to_string()
    }

    fn refusals(&mut self, name: &str) {
        let _ = fs::remove_file(&self.answers);
        let book = self.written("book", &write_book(&Graph::new(vec![true])));
        let missing = self.runner.work.join("no-such-file").display().to_string();
        let folder = self.runner.work.display().to_string();
        self.refused(&[name, "--no-such-option"]);
        self.refused(&[name, "-x"]);
        self.refused(&[name, "--no-such-option", &book]);
        self.refused(&[name, &missing]);
        self.refused(&[name, &book, &missing]);
        self.refused(&[name, &folder]);
    }

    fn subcommand(&mut self, word: &str) {
        let missing = self.runner.work.join("no-such-file").display().to_string();
        self.refused(&["could", word, "--no-such-option"]);
        self.refused(&["could", word, &missing]);
    }

    /// What becomes of FILE behind -o.
    fn answers_of(&mut self, words: &[&str]) {
        let book = self.written("book", &write_book(&Graph::new(vec![true])));
        let question = self.written("question", &[6, 0, 0, 0]);
        let fault = self.written("fault", &[6, 0, 0, 1]);
        let answers = self.answers.display().to_string();
        let nowhere = Path::new(&self.runner.work).join("no-such-folder/answers").display().to_string();
        let missing = self.runner.work.join("no-such-file").display().to_string();

        for more in [&["-o"][..], &["-o", &nowhere, &book, &question], &["-o", &answers, &book, &missing]] {
            let _ = fs::remove_file(&self.answers);
            self.refused(&[words, more].concat());
        }
        // A FILE that was there is replaced by the sheet of a no, and left as it was at a fault.
        let before = b"as it was before".repeat(20);
        for (last, printed, kept) in [(&question, "no\n", false), (&fault, "2 23\n", true)] {
            fs::write(&self.answers, &before).expect("answers can be written");
            self.run(&[words, &["-o", &answers, &book, last]].concat(), |seen| {
                let now = seen.answers.as_deref().unwrap_or(b"");
                let mut wrong = Vec::new();
                if seen.printed != printed.as_bytes() {
                    wrong.push("something else is printed");
                }
                if if kept { now != before } else { now.len() != 97 } {
                    wrong.push("FILE isn't what it should be");
                }
                wrong
            });
        }
        let _ = fs::remove_file(&self.answers);
    }
}
