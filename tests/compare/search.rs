//! Small books explored act by act, with rules of their own, so that neither the reference nor the programs can be wrong unnoticed.
//!
//! Rights 0, 1 and 2 are looked at; 3 to 7 are to the model as 2 is. A book has at most 4 vertices here, and at most 3 more are created.

use std::collections::{HashSet, VecDeque};

const MOST: usize = 7;
const KINDS: usize = 3;

/// rows[r][x] has bit y if x has r to y.
#[derive(Clone, Copy, PartialEq, Eq, Hash, PartialOrd, Ord, Debug)]
pub struct State {
    size: usize,
    acting: u8,
    rows: [[u8; MOST]; KINDS],
}

impl State {
    pub fn new(size: usize, acting: u8) -> State {
        State { size, acting, rows: [[0; MOST]; KINDS] }
    }

    pub fn has(&self, x: usize, r: usize, y: usize) -> bool {
        self.rows[r][x] >> y & 1 == 1
    }

    pub fn set(&mut self, x: usize, r: usize, y: usize) {
        self.rows[r][x] |= 1 << y;
    }

    fn acts(&self, x: usize) -> bool {
        self.acting >> x & 1 == 1
    }

    /// The book of these bytes, if it is a small one.
    pub fn of_book(bytes: &[u8]) -> Option<State> {
        let mut state = State::new(usize::from(bytes[1]), bytes[17]);
        let mut at = 18;
        for x in 0..state.size {
            let count = usize::from(bytes[at]) << 8 | usize::from(bytes[at + 1]);
            at += 2;
            for pair in bytes[at..at + 2 * count].chunks(2) {
                if usize::from(pair[0]) >= KINDS {
                    return None;
                }
                state.set(x, pair[0].into(), pair[1].into());
            }
            at += 2 * count;
        }
        Some(state)
    }

    fn take(&mut self, p: usize, y: usize, r: usize, z: usize) -> bool {
        let may = self.acts(p) && self.has(p, 0, y) && self.has(y, r, z);
        if may {
            self.set(p, r, z);
        }
        may
    }

    fn put(&mut self, p: usize, y: usize, r: usize, z: usize) -> bool {
        let may = self.acts(p) && self.has(p, 1, y) && self.has(p, r, z);
        if may {
            self.set(y, r, z);
        }
        may
    }

    fn make(&mut self, p: usize, acting: bool, rights: u8) -> bool {
        let may = self.acts(p) && self.size < MOST;
        if may {
            let new = self.size;
            self.size += 1;
            self.acting |= u8::from(acting) << new;
            for r in 0..KINDS {
                self.rows[r][p] |= (rights >> r & 1) << new;
            }
        }
        may
    }

    fn forget(&mut self, p: usize, r: usize, z: usize) -> bool {
        if self.acts(p) {
            self.rows[r][p] &= !(1 << z);
        }
        self.acts(p)
    }

    /// The state after the acts of a plan in bytes, if each may be done in its turn.
    pub fn after_plan(mut self, answer: &[u8]) -> Option<State> {
        let mut left = &answer[5..];
        let count = u32::from_be_bytes([answer[1], answer[2], answer[3], answer[4]]);
        for _ in 0..count {
            let length = if left[0] < 4 { 5 } else { 4 };
            let (act, rest) = left.split_at(length);
            let n = |i: usize| usize::from(act[i]);
            let done = match act[0] {
                2 => self.take(n(1), n(2), n(3), n(4)),
                3 => self.put(n(1), n(2), n(3), n(4)),
                4 => self.make(n(1), act[2] == 1, act[3]),
                _ => self.forget(n(1), n(2), n(3)),
            };
            if !done {
                return None;
            }
            left = rest;
        }
        left.is_empty().then_some(self)
    }

    /// All that takes and puts by those who are there bring about. They only ever add, so their order doesn't matter.
    fn saturated(mut self) -> State {
        loop {
            let before = self;
            for (p, y, z) in triples(self.size) {
                for r in 0..KINDS {
                    self.take(p, y, r, z);
                    self.put(p, y, r, z);
                }
            }
            if self == before {
                return self;
            }
        }
    }

    /// The rights that somebody of the first `old` can come to have to one of these, with at most so many creations.
    ///
    /// More rights and more who act never hinder a take, a put or a make. So it is enough to take and put all that can be
    /// before each creation, to create subjects with all rights, and to drop nothing: what any row of acts with as many
    /// creations by the same subjects brings about is then among what this does.
    pub fn reached(self, creations: usize) -> State {
        let old = self.size;
        let mut all = State::new(old, self.acting);
        let mut seen = HashSet::new();
        let mut open = vec![(self.saturated(), creations)];
        while let Some((state, left)) = open.pop() {
            all.join(&state, old);
            for p in (0..state.size).filter(|&p| left > 0 && state.acts(p)) {
                let mut next = state;
                next.make(p, true, 255);
                let next = next.saturated().least_renamed(old);
                if seen.insert(next) {
                    open.push((next, left - 1));
                }
            }
        }
        all
    }

    fn join(&mut self, other: &State, old: usize) {
        for r in 0..KINDS {
            for x in 0..old {
                self.rows[r][x] |= other.rows[r][x] & ((1 << old) - 1);
            }
        }
    }

    /// As `reached`, but by single acts of every sort, drops among them, one state after the other; nothing is argued.
    /// Looks at no more than so many states, and says whether these were all.
    pub fn reached_by_steps(self, creations: usize, states: usize) -> (State, bool) {
        let old = self.size;
        let mut all = State::new(old, self.acting);
        let mut seen = HashSet::from([self]);
        let mut open = VecDeque::from([self]);
        while let Some(state) = open.pop_front() {
            all.join(&state, old);
            for next in state.steps(old + creations) {
                let next = next.least_renamed(old);
                if seen.len() < states && seen.insert(next) {
                    open.push_back(next);
                }
            }
        }
        (all, seen.len() < states)
    }

    fn steps(&self, most: usize) -> Vec<State> {
        let mut after = Vec::new();
        let mut add = |act: &dyn Fn(&mut State) -> bool| {
            let mut next = *self;
            if act(&mut next) && next != *self {
                after.push(next);
            }
        };
        for (p, y, z) in triples(self.size) {
            for r in 0..KINDS {
                add(&|state| state.take(p, y, r, z));
                add(&|state| state.put(p, y, r, z));
                add(&|state| y == 0 && state.forget(p, r, z));
            }
        }
        for p in (0..self.size).filter(|_| self.size < most) {
            for rights in 0..1 << KINDS {
                add(&|state| state.make(p, false, rights));
                add(&|state| state.make(p, true, rights));
            }
        }
        after
    }

    /// The least of the states that differ only in how created vertices are numbered.
    fn least_renamed(&self, old: usize) -> State {
        let created: Vec<usize> = (old..self.size).collect();
        orders(&created).iter().map(|order| self.renamed(old, order)).min().unwrap_or(*self)
    }

    fn renamed(&self, old: usize, order: &[usize]) -> State {
        let name = |v: usize| if v < old { v } else { order[v - old] };
        let mut out = State::new(self.size, 0);
        for x in 0..self.size {
            out.acting |= u8::from(self.acts(x)) << name(x);
            for y in 0..self.size {
                for r in (0..KINDS).filter(|&r| self.has(x, r, y)) {
                    out.set(name(x), r, name(y));
                }
            }
        }
        out
    }
}

fn triples(n: usize) -> impl Iterator<Item = (usize, usize, usize)> {
    (0..n).flat_map(move |p| (0..n).flat_map(move |y| (0..n).map(move |z| (p, y, z))))
}

fn orders(of: &[usize]) -> Vec<Vec<usize>> {
    if of.is_empty() {
        return vec![Vec::new()];
    }
    let mut all = Vec::new();
    for (i, &first) in of.iter().enumerate() {
        let rest = [&of[..i], &of[i + 1..]].concat();
        all.extend(orders(&rest).into_iter().map(|order| [&[first][..], &order].concat()));
    }
    all
}
