// The whole table in plain Rust with rows of 128 bits, for comparison: reads the density and the rounds as the timed program does.
use std::hint::black_box;
use std::io::Read;

struct Book {
    subjects: u128,
    targets: [[u128; 8]; 128],
}

fn next(seed: u64) -> u64 {
    let a = seed ^ (seed << 13);
    let b = a ^ (a >> 7);
    b ^ (b << 17)
}

fn random(density: u64) -> Book {
    let mut book = Book { subjects: 0, targets: [[0; 8]; 128] };
    for v in 0..128 {
        if v % 4 != 3 {
            book.subjects |= 1 << v;
        }
    }
    let mut seed = 88172645463325252;
    for p in 0..128 {
        for r in 0..8 {
            for q in 0..128 {
                seed = next(seed);
                if (seed >> 20) & 4095 < density {
                    book.targets[p][r] |= 1 << q;
                }
            }
        }
    }
    book
}

fn pop(set: &mut u128) -> usize {
    let v = set.trailing_zeros() as usize;
    *set &= *set - 1;
    v
}

// 64 rows of two words, each 64 columns turned round in place: strips of 32, 16 .. 1 swapped.
fn swap<const J: usize>(block: &mut [[u64; 2]; 64], mask: u64) {
    for b in 0..32 / J {
        for i in 2 * J * b..2 * J * b + J {
            for w in 0..2 {
                let t = ((block[i][w] >> J) ^ block[i + J][w]) & mask;
                block[i][w] ^= t << J;
                block[i + J][w] ^= t;
            }
        }
    }
}

fn transpose(block: &mut [[u64; 2]; 64]) {
    swap::<32>(block, 0x0000_0000_ffff_ffff);
    swap::<16>(block, 0x0000_ffff_0000_ffff);
    swap::<8>(block, 0x00ff_00ff_00ff_00ff);
    swap::<4>(block, 0x0f0f_0f0f_0f0f_0f0f);
    swap::<2>(block, 0x3333_3333_3333_3333);
    swap::<1>(block, 0x5555_5555_5555_5555);
}

// A guess by a sample: to count all rights takes longer than to turn them.
fn few(book: &Book) -> bool {
    let mut n = 0;
    for k in 0..16 {
        n += book.targets[8 * k][k % 8].count_ones();
    }
    n < 43
}

fn set(row: [u64; 2]) -> u128 {
    row[0] as u128 | (row[1] as u128) << 64
}

// Where the island of l reaches. Nothing can be added to a whole set.
fn reach(book: &Book, takers: &[u128; 128], granters: &[u128; 128], l: usize) -> u128 {
    let (mut out, mut into) = (1u128 << l, 1u128 << l);
    let (mut out_left, mut into_left) = (out, into);
    loop {
        let (p, new_out, new_into);
        if out_left != 0 {
            p = pop(&mut out_left);
            new_out = book.targets[p][0] & !out;
            if out | new_out == !0 {
                return !0;
            }
            new_into = (book.targets[p][1] | granters[p] | (book.subjects & (1 << p))) & !into;
        } else if into_left != 0 {
            p = pop(&mut into_left);
            new_out = book.subjects & (1 << p) & !out;
            new_into = takers[p] & !into;
        } else {
            return out;
        }
        out |= new_out;
        out_left |= new_out;
        into |= new_into;
        into_left |= new_into;
    }
}


// Who has right r to each vertex: right by right, which is the faster way where there are few.
fn enter(book: &Book, r: usize, sets: &mut [[u64; 2]; 128]) {
    for x in 0..128 {
        let targets = book.targets[x][r];
        for w in 0..2 {
            let mut rest = (targets >> (64 * w)) as u64;
            while rest != 0 {
                let y = 64 * w + rest.trailing_zeros() as usize;
                rest &= rest - 1;
                sets[y][x / 64] |= 1 << (x % 64);
            }
        }
    }
}

fn turn(book: &Book, r: usize, sets: &mut [[u64; 2]; 128]) {
    let mut block = [[0; 2]; 64];
    for g in 0..2 {
        for i in 0..64 {
            let targets = book.targets[64 * g + i][r];
            block[i] = [targets as u64, (targets >> 64) as u64];
        }
        transpose(&mut block);
        for c in 0..2 {
            for i in 0..64 {
                sets[64 * c + i][g] = block[i][c];
            }
        }
    }
}

// Who has right r to each vertex.
fn holders(book: &Book, r: usize, few: bool) -> [u128; 128] {
    let mut sets = [[0; 2]; 128];
    if few { enter(book, r, &mut sets) } else { turn(book, r, &mut sets) }
    std::array::from_fn(|y| set(sets[y]))
}

// Adds `who` to the rows of right r to each of the targets.
fn share(rows: &mut [[u64; 2]; 1024], r: usize, targets: u128, who: u128) {
    for w in 0..2 {
        let mut rest = (targets >> (64 * w)) as u64;
        while rest != 0 {
            let y = 64 * w + rest.trailing_zeros() as usize;
            rest &= rest - 1;
            rows[8 * y + r][0] |= who as u64;
            rows[8 * y + r][1] |= (who >> 64) as u64;
        }
    }
}

// Adds what an island brings. Answers with those whose own rights that brought: who is where the island reaches, and gets what it brings.
fn spread(book: &Book, rows: &mut [[u64; 2]; 1024], out: u128) -> u128 {
    let mut held = [0u128; 8];
    let mut from = out;
    while from != 0 {
        let t = pop(&mut from);
        for r in 0..8 {
            held[r] |= book.targets[t][r];
        }
    }
    let who = (out & book.subjects) | held[1];
    for r in 0..8 {
        share(rows, r, held[r], who);
    }
    who & out
}

// Adds what those of a set have themselves, right by right.
fn enter_rest(book: &Book, rows: &mut [[u64; 2]; 1024], mut left: u128) {
    while left != 0 {
        let x = pop(&mut left);
        for r in 0..8 {
            share(rows, r, book.targets[x][r], 1 << x);
        }
    }
}

// Adds what each has itself, right by right turned round.
fn turn_rest(book: &Book, rows: &mut [[u64; 2]; 1024]) {
    for r in 0..8 {
        let mut sets = [[0; 2]; 128];
        turn(book, r, &mut sets);
        for y in 0..128 {
            rows[8 * y + r][0] |= sets[y][0];
            rows[8 * y + r][1] |= sets[y][1];
        }
    }
}

// Only take and grant are turned for the search. Whoever an island gives what it brings needs no turning of what it has itself.
fn table(book: &Book, rows: &mut [[u64; 2]; 1024]) {
    let few = few(book);
    let takers = holders(book, 0, few);
    let granters = holders(book, 1, few);
    rows.fill([0; 2]);
    let mut rest = book.subjects;
    let mut left = !0u128;
    while rest != 0 {
        let l = rest.trailing_zeros() as usize;
        let out = reach(book, &takers, &granters, l);
        rest &= !out;
        left &= !spread(book, rows, out);
    }
    if few || left.count_ones() < 8 {
        enter_rest(book, rows, left);
    } else {
        turn_rest(book, rows);
    }
}

// A thousand questions: who, which right, to what. Not all of them are there.
fn questions() -> [[u8; 3]; 1000] {
    let mut all = [[0; 3]; 1000];
    let mut seed = 88172645463325252;
    for question in &mut all {
        seed = next(seed);
        *question = [(seed >> 20 & 127) as u8, (seed >> 30 & 7) as u8, (seed >> 40 & 128 | seed >> 50 & 127) as u8];
    }
    all
}

fn asked(rows: &[[u64; 2]; 1024], question: [u8; 3]) -> bool {
    let [x, r, y] = question.map(usize::from);
    if x >= 128 || r >= 8 || y >= 128 {
        return false;
    }
    rows[8 * y + r][x / 64] >> (x % 64) & 1 == 1
}

fn main() {
    let mut input = Vec::new();
    std::io::stdin().read_to_end(&mut input).unwrap();
    let (density, n) = (u64::from(input[0]) * 256 + u64::from(input[1]), u64::from(input[2]) * 100 + 1);
    let book = random(density);
    let all = questions();
    let ask = if input[3] == 0 { &all[..1] } else { &all[..] };
    let mut rows = [[0; 2]; 1024];
    let mut sum = 0u64;
    for _ in 0..n {
        table(black_box(&book), &mut rows);
        for question in ask {
            sum = sum.wrapping_mul(3) ^ u64::from(asked(&rows, *question));
        }
    }
    for y in 0..128 {
        for r in 0..8 {
            sum = sum.wrapping_mul(31).wrapping_add(u64::from(set(rows[8 * y + r]).count_ones()));
        }
    }
    println!("{sum}");
}
