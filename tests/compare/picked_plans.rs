//! Books picked by hand for what is easily got wrong in plans.

use crate::random::Random;
use crate::run::Runner;
use crate::trials::ask;
use reference::book::write_book;
use reference::graph::{Graph, Right, Vertex, GRANT, TAKE};
use reference::question::Question;
use reference::rules::Rule;
use reference::spans::Spans;
use reference::witness::witness;

struct Picked {
    size: usize,
    subjects: &'static [Vertex],
    rights: &'static [(Vertex, Right, Vertex)],
    /// The right that is asked for, for everybody.
    asked: (Right, Vertex),
}

const BOOKS: [Picked; 12] = [
    // The path to 4 is chosen before anything is taken: 0 goes over 2 and 3, though it then has a shorter one over 6.
    Picked {
        size: 8,
        subjects: &[0, 1],
        rights: &[
            (0, TAKE, 2),
            (2, TAKE, 3),
            (3, TAKE, 4),
            (4, GRANT, 5),
            (1, TAKE, 5),
            (0, TAKE, 7),
            (7, TAKE, 6),
            (6, TAKE, 4),
        ],
        asked: (TAKE, 6),
    },
    // 2 has been granted the right when 0 grants it again.
    Picked {
        size: 4,
        subjects: &[0, 1],
        rights: &[(0, TAKE, 2), (1, GRANT, 2), (0, GRANT, 2), (1, 2, 3)],
        asked: (2, 3),
    },
    // Take paths lead both ways.
    Picked {
        size: 4,
        subjects: &[0, 1],
        rights: &[(0, TAKE, 1), (1, TAKE, 0), (1, 2, 3), (0, GRANT, 2)],
        asked: (2, 3),
    },
    // u and v have grant to one another; there are other pairs.
    Picked {
        size: 7,
        subjects: &[0, 1],
        rights: &[
            (0, TAKE, 2),
            (0, TAKE, 3),
            (1, TAKE, 4),
            (1, TAKE, 5),
            (2, GRANT, 5),
            (5, GRANT, 2),
            (4, GRANT, 3),
            (1, 2, 6),
            (3, GRANT, 6),
        ],
        asked: (2, 6),
    },
    // 3 has the right already, but the lowest that has it is 0.
    Picked {
        size: 6,
        subjects: &[2, 3],
        rights: &[(0, 2, 5), (2, TAKE, 0), (3, 2, 5), (3, GRANT, 4), (2, TAKE, 3)],
        asked: (2, 5),
    },
    Picked {
        size: 6,
        subjects: &[2, 3],
        rights: &[(0, 2, 5), (2, TAKE, 0), (3, 2, 5), (3, GRANT, 4), (3, TAKE, 1), (1, GRANT, 2)],
        asked: (2, 5),
    },
    // Who goes out for the right has it: nothing is taken.
    Picked {
        size: 5,
        subjects: &[1, 2],
        rights: &[(0, 2, 4), (1, TAKE, 0), (1, 2, 4), (1, TAKE, 2), (2, GRANT, 3)],
        asked: (2, 4),
    },
    // The right to grant is what is asked for, and what is needed on the way.
    Picked {
        size: 5,
        subjects: &[0, 1],
        rights: &[(0, TAKE, 2), (2, GRANT, 3), (1, TAKE, 3), (3, GRANT, 4), (1, GRANT, 3)],
        asked: (GRANT, 3),
    },
    // A right of its own to itself; and a cycle of takes.
    Picked {
        size: 4,
        subjects: &[0, 2],
        rights: &[(0, TAKE, 1), (1, TAKE, 2), (2, TAKE, 0), (1, TAKE, 1), (3, 2, 3), (1, GRANT, 3), (2, TAKE, 3)],
        asked: (2, 3),
    },
    // 2 asks, and 0, which has grant to 2, is lower: the row from 3 to 0 goes through 2 itself.
    Picked {
        size: 5,
        subjects: &[0, 2, 3],
        rights: &[(0, GRANT, 2), (2, TAKE, 3), (3, 2, 4)],
        asked: (2, 4),
    },
    // 0 and 1 have the right: the row from 0 to 2 goes through 1.
    Picked {
        size: 4,
        subjects: &[0, 1, 2],
        rights: &[(0, 2, 3), (1, 2, 3), (1, TAKE, 0), (2, TAKE, 1)],
        asked: (2, 3),
    },
    // Two equally short paths to 5, and two rows of bridges that read otherwise from their other end.
    Picked {
        size: 8,
        subjects: &[0, 1, 2, 3, 4, 7],
        rights: &[
            (0, GRANT, 1),
            (1, GRANT, 4),
            (0, GRANT, 2),
            (2, GRANT, 3),
            (3, GRANT, 7),
            (4, GRANT, 7),
            (7, TAKE, 6),
            (6, TAKE, 5),
            (5, 2, 5),
        ],
        asked: (2, 5),
    },
];

/// A chain of 128 subjects, each with grant to the next, of whom the last has the right. Its plans create 127 objects, the last of them
/// numbered 254. Who stands first gets the right by four acts for each of 127 bridges. The second gets it by one act more: the lowest
/// subject that spans initially to it is the first, so that the row goes through the second to the first, who grants it the right.
fn ask_chain(runner: &mut Runner, random: &mut Random) {
    let mut graph = Graph::new(vec![true; 128]);
    for v in 1..128 {
        graph.give(v - 1, GRANT, v);
    }
    graph.give(127, 2, 0);
    let spans = Spans::of(&graph);
    for (x, acts) in [(0, 4 * 127), (1, 4 * 127 + 1)] {
        let rules = witness(&spans, x, 2, 0).expect("the right comes along the chain");
        let created = rules.iter().filter(|rule| matches!(rule, Rule::Create { .. })).count();
        assert_eq!((rules.len(), created, graph.size() + created - 1), (acts, 127, 254));
    }
    let questions = [0, 1].map(|x| Question { x, right: 2, y: 0 });
    ask(runner, random, "plans picked by hand", &write_book(&graph), &questions);
}

/// Everybody is asked about, one book after the other; and then the chain's end.
pub fn ask_all(runner: &mut Runner, random: &mut Random) {
    for picked in &BOOKS {
        let mut graph = Graph::new((0..picked.size).map(|v| picked.subjects.contains(&v)).collect());
        for &(x, right, y) in picked.rights {
            graph.give(x, right, y);
        }
        let (right, y) = picked.asked;
        let questions: Vec<Question> = graph.vertices().map(|x| Question { x, right, y }).collect();
        ask(runner, random, "plans picked by hand", &write_book(&graph), &questions);
    }
    ask_chain(runner, random);
}
