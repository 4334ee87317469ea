// The same as the program book, in plain Rust, to compare its speed with: reads a book and acts from standard input, prints the book after them.
// With the argument `input N` it prints an input with N acts instead, all of which may be done.
use std::io::{Read, Write};

#[derive(Clone, Copy, Default)]
struct Set([u64; 4]);

impl Set {
    fn has(&self, v: u8) -> bool {
        self.0[v as usize / 64] >> (v % 64) & 1 == 1
    }
    fn put(&mut self, v: u8) {
        self.0[v as usize / 64] |= 1 << (v % 64);
    }
    fn cut(&mut self, v: u8) {
        self.0[v as usize / 64] &= !(1 << (v % 64));
    }
    fn len(&self) -> usize {
        self.0.iter().map(|w| w.count_ones() as usize).sum()
    }
}

struct Graph {
    size: u8,
    subjects: Set,
    rows: Vec<Set>,
}

type Fault = (u8, usize);

fn byte(b: &[u8], at: &mut usize) -> Result<u8, Fault> {
    let x = *b.get(*at).ok_or((1, b.len()))?;
    *at += 1;
    Ok(x)
}

fn below(b: &[u8], at: &mut usize, bound: u8) -> Result<u8, Fault> {
    let x = byte(b, at)?;
    if x < bound { Ok(x) } else { Err((2, *at - 1)) }
}

fn read_book(b: &[u8], at: &mut usize) -> Result<Graph, Fault> {
    let wide = match byte(b, at)? {
        1 => false,
        7 => true,
        _ => return Err((1, 0)),
    };
    let size = byte(b, at)?;
    if size == 0 || (size > 128) != wide {
        return Err((2, 1));
    }
    let width = if wide { 32 } else { 16 };
    let mut subjects = Set::default();
    for i in 0..width {
        let x = byte(b, at)?;
        for bit in 0..8 {
            if x >> bit & 1 == 1 {
                let v = 8 * (width - 1 - i) + bit;
                if v >= size as usize {
                    return Err((2, *at - 1));
                }
                subjects.put(v as u8);
            }
        }
    }
    let mut rows = vec![Set::default(); 2048];
    for p in 0..size as usize {
        let n = (byte(b, at)? as usize) << 8 | byte(b, at)? as usize;
        let mut least = (0, 0);
        for _ in 0..n {
            let r = below(b, at, 8)?;
            if r < least.0 {
                return Err((3, *at - 1));
            }
            let q = below(b, at, size)?;
            if (r, q) < least {
                return Err((3, *at - 1));
            }
            rows[8 * p + r as usize].put(q);
            least = (r, q + 1);
        }
    }
    Ok(Graph { size, subjects, rows })
}

enum Rule {
    Take { who: u8, from: u8, right: u8, to: u8 },
    Grant { who: u8, into: u8, right: u8, to: u8 },
    Create { who: u8, subject: bool, rights: u8 },
    Remove { who: u8, right: u8, to: u8 },
}

enum Refusal {
    NotApplicable,
    Full,
}

fn read_act(b: &[u8], at: &mut usize, n: u8) -> Result<Rule, Fault> {
    let start = *at;
    match byte(b, at)? {
        2 => Ok(Rule::Take { who: below(b, at, n)?, from: below(b, at, n)?, right: below(b, at, 8)?, to: below(b, at, n)? }),
        3 => Ok(Rule::Grant { who: below(b, at, n)?, into: below(b, at, n)?, right: below(b, at, 8)?, to: below(b, at, n)? }),
        4 => {
            let who = below(b, at, n)?;
            let subject = match byte(b, at)? {
                0 => false,
                1 => true,
                _ => return Err((1, *at - 1)),
            };
            Ok(Rule::Create { who, subject, rights: byte(b, at)? })
        }
        5 => Ok(Rule::Remove { who: below(b, at, n)?, right: below(b, at, 8)?, to: below(b, at, n)? }),
        _ => Err((1, start)),
    }
}

impl Graph {
    fn has(&self, p: u8, r: u8, q: u8) -> bool {
        self.rows[8 * p as usize + r as usize].has(q)
    }
    fn add(&mut self, p: u8, r: u8, q: u8) {
        self.rows[8 * p as usize + r as usize].put(q)
    }
    fn apply(&mut self, rule: Rule) -> Result<(), Refusal> {
        match rule {
            Rule::Take { who, from, right, to } => {
                if !(self.subjects.has(who) && self.has(who, 0, from) && self.has(from, right, to)) {
                    return Err(Refusal::NotApplicable);
                }
                self.add(who, right, to);
            }
            Rule::Grant { who, into, right, to } => {
                if !(self.subjects.has(who) && self.has(who, 1, into) && self.has(who, right, to)) {
                    return Err(Refusal::NotApplicable);
                }
                self.add(into, right, to);
            }
            Rule::Create { who, subject, rights } => {
                if !self.subjects.has(who) {
                    return Err(Refusal::NotApplicable);
                }
                let new = self.size;
                if new == 255 {
                    return Err(Refusal::Full);
                }
                self.size += 1;
                if subject {
                    self.subjects.put(new);
                }
                for r in 0..8 {
                    if rights >> r & 1 == 1 {
                        self.add(who, r, new);
                    }
                }
            }
            Rule::Remove { who, right, to } => {
                if !self.subjects.has(who) {
                    return Err(Refusal::NotApplicable);
                }
                self.rows[8 * who as usize + right as usize].cut(to);
            }
        }
        Ok(())
    }
    fn act(&mut self, b: &[u8], at: &mut usize, number: usize) -> Result<(), Fault> {
        let rule = read_act(b, at, self.size)?;
        match self.apply(rule) {
            Ok(()) => Ok(()),
            Err(Refusal::NotApplicable) => Err((4, number)),
            Err(Refusal::Full) => Err((5, number)),
        }
    }
    fn bytes(&self) -> Vec<u8> {
        let width = if self.size > 128 { 32 } else { 16 };
        let mut out = vec![if self.size > 128 { 7 } else { 1 }, self.size];
        for i in (0..width).rev() {
            out.push((self.subjects.0[i / 8] >> (8 * (i % 8))) as u8);
        }
        for p in 0..self.size {
            let rows = &self.rows[8 * p as usize..8 * p as usize + 8];
            let n: usize = rows.iter().map(Set::len).sum();
            out.extend([(n >> 8) as u8, n as u8]);
            for (r, row) in rows.iter().enumerate() {
                for q in 0..self.size {
                    if row.has(q) {
                        out.extend([r as u8, q]);
                    }
                }
            }
        }
        out
    }
}

fn replay(b: &[u8]) -> Result<Vec<u8>, Fault> {
    let mut at = 0;
    let mut g = read_book(b, &mut at)?;
    let mut number = 0;
    while at < b.len() {
        g.act(b, &mut at, number)?;
        number += 1;
    }
    Ok(g.bytes())
}

// A hundred vertices, half of them subjects, each with take and grant to many; acts at random, of which those that may be done are kept.
fn input(acts: usize) -> Vec<u8> {
    let mut seed = 7u64;
    let mut next = |n: u64| {
        seed ^= seed << 13;
        seed ^= seed >> 7;
        seed ^= seed << 17;
        seed % n
    };
    let mut g = Graph { size: 100, subjects: Set::default(), rows: vec![Set::default(); 2048] };
    for p in 0..100 {
        if p % 2 == 0 {
            g.subjects.put(p);
        }
        for q in 0..100 {
            for r in 0..8 {
                if next(4) == 0 {
                    g.add(p, r, q);
                }
            }
        }
    }
    let mut out = g.bytes();
    let mut done = 0;
    while done < acts {
        let (p, y, r, z) = (next(50) as u8 * 2, next(100) as u8, next(8) as u8, next(100) as u8);
        // Few removals, and none of take or grant, so that takes and grants stay possible.
        let act = match next(10) {
            0 => vec![5, p, 2 + r % 6, z],
            k if k % 2 == 1 => vec![2, p, y, r, z],
            _ => vec![3, p, y, r, z],
        };
        if g.act(&act, &mut 0, 0).is_ok() {
            out.extend(act);
            done += 1;
        }
    }
    out
}

fn main() {
    let args: Vec<String> = std::env::args().collect();
    if args.len() == 3 && args[1] == "input" {
        std::io::stdout().write_all(&input(args[2].parse().unwrap())).unwrap();
        return;
    }
    let mut b = Vec::new();
    std::io::stdin().read_to_end(&mut b).unwrap();
    match replay(&b) {
        Ok(out) => std::io::stdout().write_all(&out).unwrap(),
        Err((number, place)) => {
            println!("{number} {place}");
            std::process::exit(1);
        }
    }
}
