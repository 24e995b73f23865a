//! `shares COUNT SEED`: how the expected answers of all three calls are spread over the packs.

use harness::answer::Outcome;
use harness::calls::expected_check;
use harness::stream::{Aim, Stream};
use harness::{activations, deep, machines};
use std::collections::BTreeMap;
use std::time::{Duration, Instant};

type Expected = fn(&[u8]) -> Option<Outcome>;

fn main() {
    let args: Vec<u64> = std::env::args().skip(1).filter_map(|a| a.parse().ok()).collect();
    let [count, seed] = args[..] else {
        eprintln!("usage: shares COUNT SEED");
        std::process::exit(2)
    };
    let calls: [(&str, Aim, Expected); 3] = [
        ("check", Aim::Check, expected_check),
        ("machines", Aim::Lower, machines::expected),
        ("activations", Aim::Lower, activations::expected),
    ];
    for (name, aim, expected) in calls {
        deep::large(|| shares(name, aim, expected, count, seed));
    }
}

fn shares(name: &str, aim: Aim, expected: Expected, count: u64, seed: u64) {
    let mut packs = Stream::new(seed, aim);
    let mut numbers: BTreeMap<u32, u64> = BTreeMap::new();
    let mut kinds: BTreeMap<u8, u64> = BTreeMap::new();
    let (mut changed, mut slowest, mut bytes) = (0, Duration::ZERO, 0);
    let start = Instant::now();
    for _ in 0..count {
        let pack = packs.pack();
        bytes += pack.len();
        let one = Instant::now();
        let outcome = expected(&pack).expect("nothing is skipped");
        slowest = slowest.max(one.elapsed());
        changed += matches!(&outcome, Outcome::Lowered(made) if *made != pack) as u64;
        if let Outcome::Refused(report) = &outcome {
            *kinds.entry(report[2]).or_default() += 1;
        }
        *numbers.entry(outcome.answer(65_536, 65_536).number).or_default() += 1;
    }
    let (seconds, mean) = (start.elapsed().as_secs(), bytes as u64 / count.max(1));
    println!("{name}: {count} packs of {mean} bytes in {seconds} s, slowest {slowest:?}");
    println!("  answers {numbers:?}, with something lowered {changed}, first kinds in reports {kinds:?}");
}
