//! Time and stack of a call on a set of packs.

use super::sets::Set;
use crate::stack;
use std::hint::black_box;
use std::time::{Duration, Instant};

/// A call: what it returns is only kept from being optimised away.
pub type Side<'a> = &'a (dyn Fn(&[u8]) -> u64 + Sync);

/// Both sides run in turns of at least this long, so that a busy machine hurts both alike.
pub const TURN: Duration = Duration::from_millis(40);
pub const TURNS: usize = 11;
/// After this no further turns are taken, but for the fewest.
const LONGEST: Duration = Duration::from_secs(3);
pub const FEWEST: usize = 3;

/// Microseconds a pack of each side that there is: the median of its turns.
pub fn time(set: &Set, sides: [Option<Side>; 2]) -> [Option<f64>; 2] {
    let mut turns = [Vec::new(), Vec::new()];
    let start = Instant::now();
    for done in 0..TURNS {
        if done >= FEWEST && start.elapsed() >= LONGEST {
            break;
        }
        for (times, side) in turns.iter_mut().zip(sides) {
            times.extend(side.map(|call| turn(set, call)));
        }
    }
    turns.map(|times| (!times.is_empty()).then(|| median(times)))
}

fn turn(set: &Set, call: Side) -> f64 {
    let start = Instant::now();
    let mut calls = 0;
    while start.elapsed() < TURN {
        for p in &set.packs {
            black_box(call(black_box(p)));
        }
        calls += set.packs.len();
    }
    start.elapsed().as_secs_f64() * 1e6 / calls as f64
}

/// Of an even number the upper one.
pub fn median(mut values: Vec<f64>) -> f64 {
    values.sort_by(f64::total_cmp);
    values[values.len() / 2]
}

/// The most bytes of stack that the call takes on these packs.
pub fn stack(set: &Set, call: Side) -> usize {
    let used = |p: &Vec<u8>| {
        stack::used(&mut || {
            black_box(call(p));
        })
    };
    set.packs.iter().map(used).max().unwrap_or(0)
}

#[cfg(test)]
mod tests {
    use super::*;

    #[test]
    fn the_middle_value_is_taken() {
        assert_eq!(median(vec![9.0, 1.0, 2.0]), 2.0);
        assert_eq!(median(vec![4.0, 1.0, 3.0, 2.0]), 3.0);
    }
}
