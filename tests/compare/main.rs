//! Runs the programs against the reference.

mod acts;
mod books;
mod bridges;
mod commands;
mod damage;
mod forge;
mod picked;
mod picked_plans;
mod random;
mod run;
mod search;
mod small;
mod trials;

use random::Random;
use reference::programs::Program;
use run::Runner;
use std::collections::BTreeMap;
use std::fs;
use std::path::PathBuf;
use std::process::ExitCode;

#[derive(Clone, Copy)]
enum Trial {
    Acts,
    Questions,
    Counts,
    After,
    Plans,
    Sheets,
    Damaged,
    Cut,
    Small,
}

/// In what turns the trials come: how many of each one behind the other.
const TURNS: [(Trial, usize); 9] = [
    (Trial::Acts, 4),
    (Trial::Questions, 6),
    (Trial::Counts, 2),
    (Trial::After, 4),
    (Trial::Plans, 3),
    (Trial::Sheets, 4),
    (Trial::Damaged, 6),
    (Trial::Cut, 1),
    (Trial::Small, 2),
];

fn turn(trial: usize) -> Trial {
    let turns: Vec<Trial> = TURNS.iter().flat_map(|&(trial, times)| vec![trial; times]).collect();
    turns[trial % turns.len()]
}

const HELP: &str = "\
compare runs the programs book, could and check against the reference, on cases made by chance.

usage: compare BINDIR [--seed N] [--count N] [--trial N] [--without after | answers]... [--failed FOLDER]

BINDIR has the programs. A seed and a count of trials give the same cases each time; --trial runs one
of them alone. --without leaves out `could after`, or the option -o of `could`. Inputs of cases that
differ are left in FOLDER. The last line is `N cases, M differ`; the status is 1 if any do.

example: compare target/bin --seed 7 --count 10000
";

const DEFAULT_SEED: u64 = 1;
const DEFAULT_COUNT: usize = 1280;

struct Options {
    bins: PathBuf,
    failed: PathBuf,
    seed: u64,
    count: usize,
    only: Option<usize>,
    without: Vec<String>,
}

fn options() -> Result<Options, String> {
    let mut words = std::env::args().skip(1);
    let bins = words.next().ok_or("which folder has the programs?")?.into();
    let mut options = Options {
        bins,
        failed: "target/tests/failed".into(),
        seed: DEFAULT_SEED,
        count: DEFAULT_COUNT,
        only: None,
        without: Vec::new(),
    };
    while let Some(word) = words.next() {
        let value = words.next().ok_or(format!("{word} wants a value"))?;
        let number = || value.parse::<u64>().map_err(|_| format!("{value} is no number"));
        match word.as_str() {
            "--seed" => options.seed = number()?,
            "--count" => options.count = number()? as usize,
            "--trial" => options.only = Some(number()? as usize),
            "--failed" => options.failed = value.into(),
            "--without" if ["after", "answers"].contains(&value.as_str()) => options.without.push(value),
            _ => return Err(format!("there is no option {word} {value}")),
        }
    }
    Ok(options)
}

fn run_trial(runner: &mut Runner, random: &mut Random, trial: Trial, programs: &[Program]) {
    match trial {
        Trial::Acts => trials::acts_on_books(runner, random),
        Trial::Questions => trials::questions(runner, random),
        Trial::Counts => trials::counts(runner, random),
        Trial::After if !programs.contains(&Program::CouldAfter) => {}
        Trial::After => trials::changing_books(runner, random),
        Trial::Plans => trials::forged_plans(runner, random),
        Trial::Sheets => trials::forged_sheets(runner, random),
        Trial::Damaged => trials::damaged_inputs(runner, random, programs),
        Trial::Cut => trials::cut_inputs(runner, random, programs),
        Trial::Small => small::small_books(runner, random),
    }
}

fn run_all(runner: &mut Runner, options: &Options) {
    let mut programs = vec![Program::Book, Program::Could, Program::CouldAll, Program::CouldAfter, Program::Check];
    programs.retain(|&program| program != Program::CouldAfter || !options.without.contains(&"after".into()));
    if options.only.is_none() {
        commands::command_lines(runner, programs.contains(&Program::CouldAfter));
        let mut random = Random::new(options.seed, u64::MAX);
        for (program, input) in picked::inputs().into_iter().filter(|(program, _)| programs.contains(program)) {
            runner.compare("inputs picked by hand", program, &input, &mut random);
        }
        picked_plans::ask_all(runner, &mut random);
        small::all_books_of_two(runner);
    }
    for trial in options.only.map_or(0..options.count, |only| only..only + 1) {
        runner.trial = trial;
        run_trial(runner, &mut Random::new(options.seed, trial as u64), turn(trial), &programs);
    }
}

fn main() -> ExitCode {
    if std::env::args().any(|word| word == "--help" || word == "-h") {
        print!("{HELP}");
        return ExitCode::SUCCESS;
    }
    let options = match options() {
        Ok(options) => options,
        Err(words) => {
            eprintln!("{words}");
            return ExitCode::FAILURE;
        }
    };
    let work = std::env::temp_dir().join(format!("compare-{}", std::process::id()));
    fs::create_dir_all(&work).expect("a folder to work in");
    let mut runner = Runner {
        bins: options.bins.clone(),
        work: work.clone(),
        failed: options.failed.clone(),
        writes_answers: !options.without.contains(&"answers".into()),
        seed: options.seed,
        trial: 0,
        counts: BTreeMap::new(),
        told: BTreeMap::new(),
        differ: 0,
    };
    run_all(&mut runner, &options);
    let _ = fs::remove_dir_all(&work);
    for (kind, count) in &runner.counts {
        println!("{count:7} {kind}");
    }
    let told: Vec<String> = runner.told.iter().map(|(word, count)| format!("{count} {word:?}")).collect();
    println!("lines of answers and of faults by number: {}", told.join(", "));
    println!("{} cases, {} differ", runner.cases(), runner.differ);
    if runner.differ == 0 {
        ExitCode::SUCCESS
    } else {
        ExitCode::FAILURE
    }
}
