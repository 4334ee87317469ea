//! The kinds of trials: each makes some cases by chance and runs them.

use crate::acts::{acts, question};
use crate::books;
use crate::damage::damaged;
use crate::forge::{plans, sheets};
use crate::random::Random;
use crate::run::Runner;
use reference::answer::{answer, sheet_bytes, Answer};
use reference::book::write_book;
use reference::certificate::Certificate;
use reference::graph::{Graph, MOST_ASKED, RIGHTS};
use reference::programs::{asked_after, Program};
use reference::question::{question_bytes, Question};
use reference::spans::Spans;

/// Books and acts on them, up to the 256th vertex.
pub fn acts_on_books(runner: &mut Runner, random: &mut Random) {
    for _ in 0..4 {
        let input = book_input(random);
        runner.compare("books and acts", Program::Book, &input, random);
    }
}

fn book_input(random: &mut Random) -> Vec<u8> {
    let n = if random.chance(30) { books::wide_size(random) } else { books::size(random) };
    let mut graph = books::book(random, n);
    let mut input = write_book(&graph);
    let count = random.pick(&[0, 1, 3, 10, 40, 150]);
    let creations = random.pick(&[5, 20, 90, 100]);
    input.extend(acts(random, &mut graph, count, creations, 25));
    input
}

/// Questions about a book; every answer is then checked.
pub fn questions(runner: &mut Runner, random: &mut Random) {
    let n = books::size(random);
    let graph = books::book(random, n);
    let questions: Vec<Question> = (0..random.between(0, 24)).map(|_| question(random, &graph)).collect();
    ask(runner, random, "questions", &write_book(&graph), &questions);
}

/// Asks the questions in one run, and has each answer checked; what was printed, and the answers.
pub fn ask(
    runner: &mut Runner,
    random: &mut Random,
    kind: &'static str,
    book: &[u8],
    questions: &[Question],
) -> Option<(Vec<u8>, Vec<Vec<u8>>)> {
    let mut input = book.to_vec();
    input.extend(questions.iter().flat_map(|&question| question_bytes(question)));
    let seen = runner.compare(kind, Program::Could, &input, random);
    // Where the program can't write its answers yet, the reference's are checked.
    let written = if runner.writes_answers { seen.answers? } else { Program::Could.run(&input).ok()?.answers? };
    let Some(answers) = split_answers(&written).filter(|answers| answers.len() == questions.len()) else {
        runner.differs(kind, Program::Could, &input, "the answers can't be told apart");
        return None;
    };
    for (&question, answer) in questions.iter().zip(&answers) {
        check_one(runner, random, book, question, answer);
    }
    Some((seen.printed, answers))
}

/// An answer that `could` wrote must be let through by `check`.
fn check_one(runner: &mut Runner, random: &mut Random, book: &[u8], question: Question, answer: &[u8]) {
    let case = check_input(book, question, answer);
    let seen = runner.compare("answers checked", Program::Check, &case, random);
    if seen.printed != b"right\n" {
        runner.differs("answers checked", Program::Check, &case, "what could answers isn't let through by check");
    }
}

pub fn check_input(book: &[u8], question: Question, answer: &[u8]) -> Vec<u8> {
    [book, &question_bytes(question), answer].concat()
}

fn split_answers(mut bytes: &[u8]) -> Option<Vec<Vec<u8>>> {
    let mut answers = Vec::new();
    while let Some(&kind) = bytes.first() {
        let mut length = 97;
        if kind == 16 {
            length = 5;
            for _ in 0..u32::from_be_bytes(bytes.get(1..5)?.try_into().ok()?) {
                length += if *bytes.get(length)? < 4 { 5 } else { 4 };
            }
        }
        answers.push(bytes.get(..length)?.to_vec());
        bytes = &bytes[length..];
    }
    Some(answers)
}

pub fn counts(runner: &mut Runner, random: &mut Random) {
    let n = books::size(random);
    let graph = books::book(random, n);
    runner.compare("counts for all", Program::CouldAll, &write_book(&graph), random);
}

/// Acts and questions in turn.
pub fn changing_books(runner: &mut Runner, random: &mut Random) {
    for _ in 0..2 {
        let input = changing_input(random);
        let seen = runner.compare("changing books", Program::CouldAfter, &input, random);
        if let (Some(written), Ok(asked)) = (seen.answers, asked_after(&input)) {
            check_some(runner, random, &written, &asked);
        }
    }
}

/// Has some of the answers checked, each by the book as it was at its question.
fn check_some(runner: &mut Runner, random: &mut Random, written: &[u8], asked: &[(Graph, Vec<Question>)]) {
    let questions: Vec<(&Graph, Question)> =
        asked.iter().flat_map(|(then, questions)| questions.iter().map(move |&question| (then, question))).collect();
    let answers = split_answers(written).unwrap_or_default();
    for _ in 0..questions.len().min(answers.len()).min(4) {
        let i = random.below(questions.len().min(answers.len()));
        let (then, question) = questions[i];
        check_one(runner, random, &write_book(then), question, &answers[i]);
    }
}

/// A question about a right that came or went, about who has it or to what it is, or any.
fn question_about_change(random: &mut Random, before: &Graph, now: &Graph) -> Question {
    let any = question(random, now);
    let mut changed = Vec::new();
    for x in before.vertices() {
        for y in before.vertices() {
            changed.extend((0..RIGHTS).filter(|&r| before.has(x, r, y) != now.has(x, r, y)).map(|r| (x, r, y)));
        }
    }
    match (random.below(4), random.pick_any(&changed)) {
        (0, Some((x, right, y))) => Question { x, right, y },
        (1, Some((_, right, y))) => Question { right, y, ..any },
        (2, Some((x, _, _))) => Question { x, ..any },
        _ => any,
    }
}

fn changing_input(random: &mut Random) -> Vec<u8> {
    let n = books::size(random);
    let mut graph = books::book(random, n);
    let mut input = write_book(&graph);
    let creations = random.pick(&[5, 20, 90]);
    let turns = if n > 40 { 5 } else { 25 };
    let odd = random.pick(&[0, 0, 0, 0, 10]);
    for _ in 0..random.between(1, turns) {
        let before = graph.clone();
        let count = random.pick(&[0, 1, 1, 1, 2, 10]);
        input.extend(acts(random, &mut graph, count, creations, odd));
        for _ in 0..random.below(6) {
            if graph.size() <= MOST_ASKED || random.chance(odd) {
                let question = question_about_change(random, &before, &graph);
                input.extend(question_bytes(question));
            }
        }
    }
    input
}

/// A book with a question that is a yes or a no, as asked for, if some are tried in vain.
fn asked(random: &mut Random, yes: bool) -> (Graph, Question) {
    let n = books::size(random);
    let graph = books::book(random, n);
    let spans = Spans::of(&graph);
    let mut chosen = question(random, &graph);
    for _ in 0..20 {
        if spans.can_share(chosen.x, chosen.right, chosen.y) == yes && !graph.has(chosen.x, chosen.right, chosen.y) {
            break;
        }
        chosen = question(random, &graph);
    }
    (graph, chosen)
}

/// Plans that were meddled with.
pub fn forged_plans(runner: &mut Runner, random: &mut Random) {
    let (graph, question) = asked(random, true);
    let rules = match answer(&Spans::of(&graph), question) {
        Answer::Yes(rules) => rules,
        Answer::No(_) => Vec::new(),
    };
    let book = write_book(&graph);
    for plan in plans::forged(random, &graph, question, &rules) {
        runner.compare("forged plans", Program::Check, &check_input(&book, question, &plan), random);
    }
    if graph.size() < 10 && random.chance(30) {
        for plan in plans::longest_plans(&graph, &rules) {
            runner.compare("longest plans", Program::Check, &check_input(&book, question, &plan), random);
        }
    }
}

/// Sheets that were meddled with, also for a right that could be had.
pub fn forged_sheets(runner: &mut Runner, random: &mut Random) {
    let yes = random.chance(15);
    let (graph, question) = asked(random, yes);
    let sheet = Certificate::of(&Spans::of(&graph), question.x);
    let book = write_book(&graph);
    let mut forged = sheets::forged(random, &graph, question, &sheet);
    forged.push(sheet_bytes(&sheet));
    if graph.size() <= 4 {
        forged.extend(sheets::all_flips(&sheet));
    }
    for sheet in forged {
        runner.compare("forged sheets", Program::Check, &check_input(&book, question, &sheet), random);
    }
    let other = Question { x: random.below(graph.size()), ..question };
    runner.compare("forged sheets", Program::Check, &check_input(&book, other, &sheet_bytes(&sheet)), random);
}

/// An input of a program, without a fault or with one by chance.
fn some_input(random: &mut Random, program: Program) -> Vec<u8> {
    if program == Program::Book {
        return book_input(random);
    }
    if program == Program::CouldAfter {
        return changing_input(random);
    }
    let yes = random.chance(50);
    let (graph, question) = asked(random, yes);
    let mut input = write_book(&graph);
    match program {
        Program::Could => input.extend(question_bytes(question).repeat(random.between(1, 3))),
        Program::Check => {
            input.extend(question_bytes(question));
            input.extend(answer(&Spans::of(&graph), question).bytes());
        }
        _ => {}
    }
    input
}

pub fn damaged_inputs(runner: &mut Runner, random: &mut Random, programs: &[Program]) {
    let program = random.pick(programs);
    let input = some_input(random, program);
    for _ in 0..5 {
        let mut bytes = damaged(random, &input);
        if random.chance(15) {
            bytes = damaged(random, &bytes);
        }
        runner.compare("damaged inputs", program, &bytes, random);
    }
}

/// A short input, cut at every byte.
pub fn cut_inputs(runner: &mut Runner, random: &mut Random, programs: &[Program]) {
    let program = random.pick(programs);
    let input = some_input(random, program);
    let from = if input.len() <= 80 { 0 } else { input.len() - 40 };
    for end in from..input.len() {
        runner.compare("inputs cut", program, &input[..end], random);
    }
}
