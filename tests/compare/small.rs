//! Small books, explored by brute force: whatever can be reached must be a yes, and only that.

use crate::forge::closure::closed;
use crate::random::Random;
use crate::run::Runner;
use crate::search::State;
use crate::trials::{ask, check_input};
use reference::answer::sheet_bytes;
use reference::book::write_book;
use reference::certificate::Certificate;
use reference::graph::{Graph, Right};
use reference::programs::Program;
use reference::question::Question;
use reference::spans::Spans;

const KINDS: usize = 3;
/// How many states a search by single acts looks at.
const STATES: usize = 2000;

fn all_questions(n: usize) -> Vec<Question> {
    let mut all = Vec::new();
    for x in 0..n {
        for right in 0..KINDS {
            all.extend((0..n).map(|y| Question { x, right: right as Right, y }));
        }
    }
    all
}

fn reaches(state: &State, question: Question) -> bool {
    state.has(question.x, question.right.into(), question.y)
}

fn small_book(random: &mut Random) -> Graph {
    let n = random.between(2, 4);
    let mut graph = Graph::new((0..n).map(|_| random.chance(60)).collect());
    for _ in 0..random.between(1, 2 * n) {
        graph.give(random.below(n), random.below(KINDS) as Right, random.below(n));
    }
    graph
}

/// A book of two to four vertices, with all questions about it.
pub fn small_books(runner: &mut Runner, random: &mut Random) {
    for _ in 0..5 {
        search(runner, &small_book(random));
    }
    let graph = small_book(random);
    let (state, reached) = search(runner, &graph);
    let book = write_book(&graph);
    search_by_steps(runner, &graph, state);
    compare_answers(runner, random, &book, state, &reached);
    compare_sheets(runner, random, &graph, &reached);
}

/// The book as the search has it, and all that is reached; a row of bridges is at most as long as there are subjects.
fn search(runner: &mut Runner, graph: &Graph) -> (State, State) {
    let state = State::of_book(&write_book(graph)).expect("a small book");
    let reached = state.reached(graph.size() - 1);
    runner.count("books searched");
    compare_with_search(runner, graph, &reached);
    (state, reached)
}

fn compare_with_search(runner: &mut Runner, graph: &Graph, reached: &State) {
    let spans = Spans::of(graph);
    for question in all_questions(graph.size()) {
        if spans.can_share(question.x, question.right, question.y) != reaches(reached, question) {
            runner.differs(
                "books searched",
                Program::Could,
                &write_book(graph),
                &format!("the reference differs from the search at {question:?}"),
            );
        }
    }
}

/// The search by single acts of every sort finds nothing else; and if it came to its end, the same with as many creations.
fn search_by_steps(runner: &mut Runner, graph: &Graph, state: State) {
    let spans = Spans::of(graph);
    for creations in 0..=1 {
        let (stepped, whole) = state.reached_by_steps(creations, STATES);
        let argued = state.reached(creations);
        for question in all_questions(graph.size()) {
            let found = reaches(&stepped, question);
            if found && !spans.can_share(question.x, question.right, question.y) {
                runner.differs(
                    "books searched",
                    Program::Could,
                    &write_book(graph),
                    &format!("single acts bring about a no: {question:?}"),
                );
            }
            if found != reaches(&argued, question) && (whole || found) {
                runner.differs(
                    "books searched",
                    Program::Could,
                    &write_book(graph),
                    &format!("the two searches differ at {question:?}"),
                );
            }
        }
    }
}

/// What the program `could` says and writes, against the search: each plan is done act by act.
fn compare_answers(runner: &mut Runner, random: &mut Random, book: &[u8], state: State, reached: &State) {
    let questions = all_questions(usize::from(book[1]));
    let Some((printed, answers)) = ask(runner, random, "questions about small books", book, &questions) else {
        return;
    };
    let lines: Vec<&[u8]> = printed.split(|&byte| byte == b'\n').collect();
    for (i, &question) in questions.iter().enumerate() {
        let yes = reaches(reached, question);
        if lines[i] != if yes { &b"yes"[..] } else { &b"no"[..] } {
            runner.differs(
                "questions about small books",
                Program::Could,
                book,
                &format!("the search finds otherwise at {question:?}"),
            );
        }
        let brought =
            answers[i][0] == 16 && state.after_plan(&answers[i]).is_some_and(|after| reaches(&after, question));
        if brought != yes {
            runner.differs(
                "questions about small books",
                Program::Could,
                book,
                &format!("the plan doesn't bring it about: {question:?}"),
            );
        }
    }
}

/// A sheet that `check` lets through is about a right that the search doesn't reach; in the reference, all sheets.
fn compare_sheets(runner: &mut Runner, random: &mut Random, graph: &Graph, reached: &State) {
    let n = graph.size();
    let book = write_book(graph);
    let questions = all_questions(n);
    if n <= 3 {
        compare_all_sheets(runner, graph, reached);
    }
    for _ in 0..6 {
        let question = random.pick(&questions);
        let mut set = || (0..n).map(|_| random.chance(30)).collect::<Vec<bool>>();
        let any = Certificate { inner: vec![false; n], into: set(), out: set() };
        let sheet = sheet_bytes(&closed(graph, question.x, &any));
        let input = check_input(&book, question, &sheet);
        let seen = runner.compare("sheets of small books", Program::Check, &input, random);
        if seen.printed == b"right\n" && reaches(reached, question) {
            runner.differs(
                "sheets of small books",
                Program::Check,
                &input,
                "a sheet is let through for what the search reaches",
            );
        }
    }
}

/// In the reference: each no has a right sheet, each yes none.
fn compare_all_sheets(runner: &mut Runner, graph: &Graph, reached: &State) {
    let n = graph.size();
    let sets: Vec<Vec<bool>> = (0..1 << n).map(|bits: usize| (0..n).map(|v| bits >> v & 1 == 1).collect()).collect();
    for question in all_questions(n) {
        let right = |inner: &Vec<bool>, into: &Vec<bool>, out: &Vec<bool>| {
            let certificate = Certificate { inner: inner.clone(), into: into.clone(), out: out.clone() };
            certificate.check(graph, question.x, question.right, question.y).is_ok()
        };
        let any = sets.iter().any(|inner| sets.iter().any(|into| sets.iter().any(|out| right(inner, into, out))));
        if any == reaches(reached, question) {
            runner.differs(
                "books searched",
                Program::Check,
                &write_book(graph),
                &format!("sheets and search differ at {question:?}"),
            );
        }
    }
}

/// Every book with two vertices and rights 0 to 2, in the reference.
pub fn all_books_of_two(runner: &mut Runner) {
    runner.count("all books of two vertices searched");
    for bits in 0..1 << 14 {
        let mut graph = Graph::new(vec![bits & 1 == 1, bits >> 1 & 1 == 1]);
        for i in (0..12).filter(|i| bits >> (i + 2) & 1 == 1) {
            graph.give(i / 6, (i % 3) as Right, i / 3 % 2);
        }
        let reached = State::of_book(&write_book(&graph)).expect("a small book").reached(2);
        compare_with_search(runner, &graph, &reached);
        compare_all_sheets(runner, &graph, &reached);
    }
}
