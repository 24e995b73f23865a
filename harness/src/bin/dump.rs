//! `dump COUNT SEED long|short IN OUT [PACKS]`: packs (those of a file, each after its length, or the stream's) for a program that lowers activations, and what it should answer.
//! IN has records of three lengths (pack, output, report; 4 bytes each, lowest first) and the pack. OUT has for each the
//! number (1 byte), the value (4 bytes), a byte 1 (what is not written is unchanged), and the bytes written.

use harness::answer::Outcome;
use harness::rng::Rng;
use harness::stream::{Aim, Stream};
use harness::{activations, deep};
use std::fs::File;
use std::io::{BufWriter, Write};

fn main() {
    let args: Vec<String> = std::env::args().skip(1).collect();
    let [count, seed, mode, packs, answers, rest @ ..] = &args[..] else { usage() };
    let (Ok(count), Ok(seed)) = (count.parse(), seed.parse()) else { usage() };
    let short = mode == "short";
    let given = rest.first().map_or(vec![], |f| given(&std::fs::read(f).expect("PACKS")));
    deep::large(|| dump(count, seed, short, packs, answers, given));
}

fn usage() -> ! {
    eprintln!("usage: dump COUNT SEED long|short IN OUT [PACKS]");
    std::process::exit(2)
}

/// The packs of a file, each after its length of 4 bytes.
fn given(all: &[u8]) -> Vec<Vec<u8>> {
    let mut packs = vec![];
    let mut at = 0;
    while at + 4 <= all.len() {
        let n = u32::from_le_bytes(all[at..at + 4].try_into().unwrap()) as usize;
        packs.push(all[at + 4..at + 4 + n].to_vec());
        at += 4 + n;
    }
    packs
}

fn lengths(rng: &mut Rng, short: bool, outcome: &Outcome) -> (usize, usize) {
    if !short {
        return (65_536, 65_536);
    }
    let need = outcome.bytes();
    let mut one = || match rng.below(8) {
        0 => need.saturating_sub(1),
        1 => 0,
        2 => rng.below(need + 2),
        3 => need + 1,
        _ => need,
    };
    (one().min(65_536), one().min(65_536))
}

fn dump(count: u64, seed: u64, short: bool, packs: &str, answers: &str, given: Vec<Vec<u8>>) {
    let mut input = BufWriter::new(File::create(packs).expect("IN"));
    let mut output = BufWriter::new(File::create(answers).expect("OUT"));
    let mut stream = Stream::new(seed, Aim::Lower);
    let mut rng = Rng::new(seed);
    let mut spread = [0u64; 10];
    let count = if given.is_empty() { count } else { given.len() as u64 };
    for i in 0..count {
        let mut pack = given.get(i as usize).cloned().unwrap_or_else(|| stream.pack());
        pack.truncate(65_537);
        let outcome = activations::expected(&pack).expect("nothing is skipped");
        let lens = lengths(&mut rng, short, &outcome);
        let want = outcome.answer(lens.0, lens.1);
        for n in [pack.len(), lens.0, lens.1] {
            input.write_all(&(n as u32).to_le_bytes()).expect("IN");
        }
        input.write_all(&pack).expect("IN");
        output.write_all(&[want.number as u8]).expect("OUT");
        output.write_all(&want.value.to_le_bytes()).expect("OUT");
        output.write_all(&[1]).expect("OUT");
        output.write_all(want.output.as_deref().unwrap_or(&[])).expect("OUT");
        output.write_all(want.report.as_deref().unwrap_or(&[])).expect("OUT");
        spread[want.number as usize] += 1;
    }
    println!("{spread:?}");
}
