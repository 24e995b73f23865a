//! `compare COUNT SEED [CALL]`: compares COUNT packs through every call that is linked, or through one of them.
//! `compare hostile`: compares the constructed packs. Calls are made on a thread with the stack that Rust gives.

use harness::alarm;
use harness::calls::{self, Call};
use harness::compare::{self, Judge, Tally};
use harness::hostile;
use harness::stream::{Aim, Stream};
use std::time::{Duration, Instant};

/// Differences printed as they are met; after these only the shortest is.
const SHOWN: u64 = 3;
/// Some constructed packs are slow on both sides, and each is called several times.
const HOSTILE_SECONDS: u32 = 600;

fn main() {
    let args: Vec<String> = std::env::args().skip(1).collect();
    let args: Vec<&str> = args.iter().map(|a| a.as_str()).collect();
    let mut calls = calls::linked();
    if calls.is_empty() {
        eprintln!("{}", calls::ABSENT);
        std::process::exit(2);
    }
    if let [_, _, name] = args[..] {
        calls.retain(|call| call.name == name);
    }
    let tally = match args[..] {
        ["hostile"] => on_a_thread(|| hostile(&calls)),
        [count, seed] | [count, seed, _] if !calls.is_empty() => match (count.parse(), seed.parse()) {
            (Ok(count), Ok(seed)) => on_a_thread(|| run(&calls, count, seed)),
            _ => usage(),
        },
        _ => usage(),
    };
    if tally.skipped > 0 {
        println!("{} calls skipped: the reference cannot tell", tally.skipped);
    }
    println!("{} calls", tally.calls);
    println!("{} compared, {} different", tally.compared, tally.different);
    std::process::exit((tally.different > 0) as i32);
}

fn usage() -> ! {
    eprintln!("usage: compare COUNT SEED [check | machines | activations] | compare hostile");
    std::process::exit(2)
}

/// As a host that spawns a thread and says nothing of its stack.
fn on_a_thread(work: impl FnOnce() -> Tally + Send) -> Tally {
    std::thread::scope(|scope| scope.spawn(work).join().expect("the thread of the calls panicked"))
}

fn run(calls: &[Call], count: u64, seed: u64) -> Tally {
    let aim = |call: &Call| if call.name == "check" { Aim::Check } else { Aim::Lower };
    let mut aims: Vec<Aim> = calls.iter().map(aim).collect();
    aims.dedup();
    let mut streams: Vec<Stream> = aims.into_iter().map(|aim| Stream::new(seed, aim)).collect();
    let mut judge = Judge::new(seed);
    alarm::watch(seed);
    let mut tally = Tally::default();
    let mut shown = 0;
    let mut shortest: Option<(usize, String)> = None;
    let start = Instant::now();
    let mut next = Duration::from_secs(5);
    for i in 0..count {
        let which = i as usize % streams.len();
        let pack = streams[which].pack();
        let mut say = |text: String| {
            shown += 1;
            let text = format!("seed {seed}, pack {i}: {text}");
            if shown <= SHOWN {
                println!("{text}");
            }
            if shortest.as_ref().is_none_or(|(len, _)| pack.len() < *len) {
                shortest = Some((pack.len(), text));
            }
        };
        let work = || compare::pack(&mut judge, calls, &pack, &mut tally, &mut say);
        alarm::during(i, &pack, alarm::SECONDS, work);
        if start.elapsed() >= next {
            println!("{} of {count} after {} s, {} different", i + 1, start.elapsed().as_secs(), tally.different);
            next += Duration::from_secs(5);
        }
    }
    if let Some((_, text)) = shortest {
        println!("the shortest pack that differs: {text}");
    }
    tally
}

fn hostile(calls: &[Call]) -> Tally {
    let mut judge = Judge::new(0);
    alarm::watch(0);
    let mut tally = Tally::default();
    for (i, h) in hostile::all().iter().enumerate() {
        let start = Instant::now();
        let mut say = |text: String| println!("{}: {text}", h.name);
        let work = || compare::pack(&mut judge, calls, &h.pack, &mut tally, &mut say);
        alarm::during(i as u64, &h.pack, HOSTILE_SECONDS, work);
        println!("{:<44}{:>7} bytes{:>9.2} s", h.name, h.pack.len(), start.elapsed().as_secs_f64());
    }
    tally
}
