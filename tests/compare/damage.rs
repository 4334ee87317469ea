//! Damaged inputs: bytes changed, cut off, put in, left over.

use crate::random::Random;

/// An offset, more often near either end of the bytes.
fn place(random: &mut Random, length: usize) -> usize {
    let near = length.min(24);
    match random.below(3) {
        0 => random.below(near),
        1 => length - 1 - random.below(near),
        _ => random.below(length),
    }
}

pub fn damaged(random: &mut Random, bytes: &[u8]) -> Vec<u8> {
    let mut out = bytes.to_vec();
    if out.is_empty() {
        return vec![random.byte()];
    }
    let at = place(random, out.len());
    match random.below(10) {
        0 | 1 => out[at] ^= 1 << random.below(8),
        2 => out[at] = random.byte(),
        3 => out[at] = random.pick(&[0, 1, 2, 3, 4, 5, 6, 7, 8, 16, 17, 127, 128, 129, 254, 255]),
        4 => out[at] = if random.chance(50) { out[at].wrapping_add(1) } else { out[at].wrapping_sub(1) },
        5 | 6 => out.truncate(at),
        7 => out.insert(at, random.byte()),
        8 => drop(out.remove(at)),
        _ => {
            for _ in 0..random.between(1, 5) {
                out.push(random.byte());
            }
        }
    }
    out
}
