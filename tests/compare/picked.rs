//! Inputs picked by hand, for each fault and for the ends of each range.

use reference::book::write_book;
use reference::graph::{Graph, GRANT, TAKE};
use reference::programs::Program;
use reference::witness::longest;

const NARROW: [Program; 4] = [Program::Could, Program::CouldAll, Program::CouldAfter, Program::Check];

/// A head of a book: its kind, n, and its subjects as the last bytes of a set.
fn head(kind: u8, n: u8, subjects: &[u8]) -> Vec<u8> {
    let mut bytes = vec![kind, n];
    bytes.resize(2 + if kind == 7 { 32 } else { 16 } - subjects.len(), 0);
    bytes.extend(subjects);
    bytes
}

/// A book of vertices without rights, the first of which acts.
fn bare(n: usize) -> Vec<u8> {
    write_book(&Graph::new((0..n).map(|v| v == 0).collect()))
}

fn followed(book: &[u8], bytes: &[u8]) -> Vec<u8> {
    [book, bytes].concat()
}

pub fn inputs() -> Vec<(Program, Vec<u8>)> {
    let mut all = Vec::new();
    for program in [&NARROW[..], &[Program::Book]].concat() {
        all.extend(heads().into_iter().chain(rights()).map(|input| (program, input)));
    }
    all.extend(acts().into_iter().flat_map(|input| [(Program::Book, input.clone()), (Program::CouldAfter, input)]));
    all.extend(crowded());
    all.extend(long_rows().into_iter().map(|input| (Program::Could, input)));
    all.extend(asked().into_iter().map(|input| (Program::Could, input)));
    all.extend(answers().into_iter().chain(longest_plans()).chain([by_takes_alone()]).map(|input| (Program::Check, input)));
    all
}

fn heads() -> Vec<Vec<u8>> {
    let mut all = vec![
        vec![],
        vec![1],
        vec![7],
        vec![1, 1],
        vec![7, 129],
        vec![1, 0, 255],
        vec![1, 129],
        vec![7, 128],
        vec![7, 0],
    ];
    all.extend((0..=18).map(|kind| vec![kind]));
    all.extend([0, 1, 127, 128, 129, 254, 255].iter().flat_map(|&n| [head(1, n, &[1]), head(7, n, &[1])]));
    all.extend([bare(1), bare(2), bare(127), bare(128), bare(129), bare(255)]);
    all.extend([
        head(1, 1, &[2]),
        head(1, 7, &[128]),
        head(1, 8, &[1, 0]),
        head(1, 9, &[1, 0]),
        head(1, 127, &[128; 16]),
        head(1, 128, &[255; 16]),
    ]);
    all.extend([head(7, 255, &[128; 32]), head(7, 129, &[2, 0, 0, 0, 0, 0, 0, 0, 0, 0, 0, 0, 0, 0, 0, 0, 0])]);
    all
}

/// The rights of two vertices, behind the head of their book.
fn rights() -> Vec<Vec<u8>> {
    let rights: [&[u8]; 14] = [
        &[0],
        &[255, 255],
        &[0, 1],
        &[0, 1, 8],
        &[0, 1, 0],
        &[0, 1, 0, 2],
        &[0, 2, 0, 0, 0, 0],
        &[0, 2, 0, 1, 0, 0],
        &[0, 2, 1, 0, 0, 1],
        &[0, 2, 1, 1, 1, 2],
        &[0, 2, 0, 1, 9, 0],
        &[0, 2, 7, 0, 7, 1, 0, 0],
        &[0, 1, 7, 1, 0, 0, 0],
        &[0, 0, 0, 0, 1],
    ];
    rights.iter().map(|rights| followed(&head(1, 2, &[1]), rights)).collect()
}

fn acts() -> Vec<Vec<u8>> {
    let mut graph = Graph::new(vec![true, false, false]);
    graph.give(0, TAKE, 1);
    graph.give(0, GRANT, 2);
    graph.give(1, 7, 0);
    let book = write_book(&graph);
    let acts: [&[u8]; 24] = [
        &[2, 0, 1, 7, 0],
        &[2, 0, 1, 7, 1],
        &[2, 1, 1, 7, 0],
        &[2, 3, 1, 7, 0],
        &[2, 0, 3, 8, 0],
        &[2, 0, 1, 8, 3],
        &[2, 0, 1, 7, 3],
        &[2, 0, 1, 7],
        &[3, 0, 2, 0, 1],
        &[3, 0, 2, 1, 2],
        &[3, 0, 1, 0, 1],
        &[3, 2, 0, 0, 1],
        &[4, 0, 0, 255, 2, 0, 3, 0, 3],
        &[4, 0, 1, 0, 5, 3, 0, 3],
        &[4, 0, 2, 0],
        &[4, 0, 255],
        &[4, 1, 0, 0],
        &[4, 1, 2, 0],
        &[4, 3, 2, 0],
        &[5, 0, 0, 1, 2, 0, 1, 7, 0],
        &[5, 0, 6, 2],
        &[5, 1, 7, 0],
        &[0],
        &[16, 0, 0, 0, 0],
    ];
    acts.iter().map(|acts| followed(&book, acts)).collect()
}

/// At 128 and at 255 vertices.
fn crowded() -> Vec<(Program, Vec<u8>)> {
    let make: &[u8] = &[4, 0, 0, 3];
    let ask: &[u8] = &[6, 0, 0, 0];
    let full = bare(255);
    vec![
        (Program::Book, followed(&full, make)),
        (Program::Book, followed(&full, &[4, 1, 0, 3])),
        (Program::Book, followed(&full, &[4, 0, 2, 3])),
        (Program::Book, followed(&full, &[5, 0, 0, 254])),
        (Program::Book, followed(&full, &[5, 0, 0, 255])),
        (Program::Book, followed(&bare(128), make)),
        (Program::Book, followed(&bare(128), &make.repeat(127))),
        (Program::Book, followed(&bare(128), &make.repeat(128))),
        (Program::Book, followed(&bare(1), &make.repeat(254))),
        (Program::Book, followed(&bare(1), &make.repeat(255))),
        (Program::CouldAfter, followed(&bare(128), ask)),
        (Program::CouldAfter, followed(&bare(127), &[make, ask, &[6, 0, 1, 127]].concat())),
        (Program::CouldAfter, followed(&bare(128), &[make, ask].concat())),
        (Program::CouldAfter, followed(&bare(128), &[make, make, &[6]].concat())),
        (Program::CouldAfter, followed(&bare(128), &make.repeat(127))),
        (Program::CouldAfter, followed(&bare(128), &make.repeat(128))),
        (Program::CouldAfter, followed(&bare(2), &[ask, make, ask, &[2, 1, 1, 1, 1], ask].concat())),
        (Program::CouldAfter, followed(&bare(2), &[&[6, 0, 0, 2], make].concat())),
        (Program::CouldAfter, followed(&bare(2), &[make, &[6, 0, 0, 2]].concat())),
    ]
}

/// 128 subjects in a row, all joined in one way, and a question from end to end: some plans create 127 objects.
fn long_rows() -> Vec<Vec<u8>> {
    let mut all = Vec::new();
    for (right, forth) in [(TAKE, true), (TAKE, false), (GRANT, true), (GRANT, false)] {
        for n in [127, 128] {
            let mut graph = Graph::new(vec![true; n]);
            for v in 1..n {
                let (from, to) = if forth { (v - 1, v) } else { (v, v - 1) };
                graph.give(from, right, to);
            }
            graph.give(n - 1, 2, 0);
            graph.give(0, 3, n - 1);
            let last = n as u8 - 1;
            all.push(followed(&write_book(&graph), &[6, 0, 2, 0, 6, last, 3, last, 6, 0, 4, 0]));
        }
    }
    all
}

fn asked() -> Vec<Vec<u8>> {
    let questions: [&[u8]; 10] = [
        &[],
        &[6],
        &[6, 2],
        &[6, 0],
        &[6, 0, 8],
        &[6, 0, 7],
        &[6, 0, 7, 2],
        &[6, 1, 7, 1],
        &[6, 0, 0, 0, 2],
        &[6, 0, 0, 0, 6],
    ];
    questions.iter().map(|questions| followed(&bare(2), questions)).collect()
}

fn answers() -> Vec<Vec<u8>> {
    let mut graph = Graph::new(vec![true, true]);
    graph.give(0, TAKE, 1);
    graph.give(1, 2, 1);
    let book = write_book(&graph);
    let (ask, held) = ([6, 0, 2, 1], [6, 1, 2, 1]);
    let plans: [&[u8]; 12] = [
        &[],
        &[0],
        &[18],
        &[16],
        &[16, 0, 0, 0],
        &[16, 0, 0, 0, 0],
        &[16, 0, 0, 0, 0, 2],
        &[16, 0, 0, 0, 1, 2, 0, 1, 2, 1],
        &[16, 0, 0, 0, 1, 6, 0, 1, 2, 1],
        &[16, 0, 0, 0, 128],
        &[16, 0, 0, 0, 129],
        &[16, 255, 255, 255, 255],
    ];
    let mut all: Vec<Vec<u8>> = plans
        .iter()
        .flat_map(|plan| [followed(&book, &[&ask[..], plan].concat()), followed(&book, &[&held[..], plan].concat())])
        .collect();
    for (inner, into, out) in [(3, 3, 3), (0, 0, 0), (1, 1, 1), (4, 0, 0), (0, 4, 0), (0, 0, 4)] {
        let mut sheet = vec![17];
        for set in [inner, into, out] {
            sheet.extend([0; 31]);
            sheet.push(set);
        }
        for question in [ask, held, [6, 0, 3, 1]] {
            all.push(followed(&book, &[&question[..], &sheet].concat()));
            all.push(followed(&book, &[&question[..], &sheet, &[0]].concat()));
            all.push(followed(&book, &[&question[..], &sheet[..96]].concat()));
        }
    }
    all
}

/// A sheet that is right for who looks at takes alone: 0 takes from 2, into which 1 may put, and 1 has the right to 3. J = {0}, I = {0}, O = {0, 2}.
fn by_takes_alone() -> Vec<u8> {
    let mut graph = Graph::new(vec![true, true, false, false]);
    graph.give(0, TAKE, 2);
    graph.give(1, GRANT, 2);
    graph.give(1, 2, 3);
    let mut sheet = vec![6, 0, 2, 3, 17];
    for set in [1, 1, 5] {
        sheet.extend([0; 31]);
        sheet.push(set);
    }
    followed(&write_book(&graph), &sheet)
}

/// Plans of nothing but drops, as long as may be, and one act longer.
fn longest_plans() -> Vec<Vec<u8>> {
    let mut all = Vec::new();
    for n in [1, 2, 127, 128] {
        let mut graph = Graph::new(vec![true; n]);
        graph.give(0, 2, 0);
        for count in [longest(n), longest(n) + 1] {
            let mut plan = vec![6, 0, 2, 0, 16];
            plan.extend((count as u32).to_be_bytes());
            plan.extend([5, 0, 3, 0].repeat(count));
            all.push(followed(&write_book(&graph), &plan));
        }
    }
    all
}
