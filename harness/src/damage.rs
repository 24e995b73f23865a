//! Damaged copies of a pack: cut, changed, lengthened, with counts and indexes at their edges.

use crate::encode::{Mark, Marks};
use crate::rng::Rng;

/// One damaged copy. `names` is the number of names in the pack.
pub fn damage(rng: &mut Rng, pack: &[u8], marks: &Marks, names: u16) -> Vec<u8> {
    let mut copy = pack.to_vec();
    match rng.below(12) {
        0 | 1 => {
            let keep = rng.below(copy.len() + 1);
            copy.truncate(keep);
        }
        2 => add(rng, &mut copy),
        3 => any_byte(rng, &mut copy),
        4 => {
            // A piece repeated or lost shifts everything after it.
            let from = rng.below(copy.len() + 1);
            let to = (from + rng.range(1, 4)).min(copy.len());
            if rng.chance(1, 2) {
                copy.drain(from..to);
            } else {
                let piece = copy[from..to].to_vec();
                copy.splice(from..from, piece);
            }
        }
        _ => at_mark(rng, &mut copy, marks, names),
    }
    copy
}

fn add(rng: &mut Rng, copy: &mut Vec<u8>) {
    for _ in 0..rng.range(1, 3) {
        let b = rng.word() as u8;
        copy.push(if rng.chance(1, 2) { 0 } else { b });
    }
}

fn any_byte(rng: &mut Rng, copy: &mut [u8]) {
    if !copy.is_empty() {
        let at = rng.below(copy.len());
        copy[at] = match rng.below(4) {
            0 => copy[at].wrapping_add(1),
            1 => copy[at].wrapping_sub(1),
            2 => copy[at] ^ (1 << rng.below(8)),
            _ => rng.word() as u8,
        };
    }
}

/// Changes one field, knowing what it is.
fn at_mark(rng: &mut Rng, copy: &mut [u8], marks: &Marks, names: u16) {
    if marks.is_empty() {
        return;
    }
    let (at, mark) = marks[rng.below(marks.len())];
    match mark {
        Mark::Count => {
            let count = u16::from_le_bytes([copy[at], copy[at + 1]]);
            let other = rng.pick(&[1, u16::MAX, 2, count.wrapping_neg()]);
            put(copy, at, count.wrapping_add(other));
        }
        Mark::Index => {
            let to = rng.pick(&[names, names.wrapping_sub(1), 65_535, 65_534, names.wrapping_add(1), 0]);
            put(copy, at, to);
        }
        Mark::Byte => {
            copy[at] = rng.pick(&[0, 1, 2, 3, 4, 13, 14, 16, 17, 19, 20, 255, copy[at].wrapping_add(1)]);
        }
        Mark::NameLength => copy[at] = rng.pick(&[0, 1, copy[at].wrapping_add(1), copy[at].wrapping_sub(1), 255]),
        Mark::Character => {
            copy[at] = rng.pick(&[b' ', b'-', b'@', b'[', b'`', b'{', b'/', b':', 0, 128, 255, b'Z', b'0'])
        }
    }
}

fn put(copy: &mut [u8], at: usize, number: u16) {
    copy[at..at + 2].copy_from_slice(&number.to_le_bytes());
}
