//! `bench [check] [machines] [activations] [stack]`: one table of the linked calls against the Rust, on the same packs in
//! one run, and of the stack that they take. Named calls are shown alone; `stack` takes no times.

use harness::bench::sets::{self, Set};
use harness::bench::subject::{lower, lowerings, Lowering};
use harness::bench::table::{summary, table, Row};
use harness::bench::timing::{stack, time, Side, FEWEST, TURN, TURNS};
use harness::calls;
use harness::decode::decode;
use harness::deep;

const CALLS: [&str; 3] = ["check", "machines", "activations"];

fn main() {
    let words: Vec<String> = std::env::args().skip(1).collect();
    if words.iter().any(|w| w != "stack" && !CALLS.contains(&w.as_str())) {
        eprintln!("usage: bench [check] [machines] [activations] [stack]");
        std::process::exit(2);
    }
    let named = |word: &str| words.iter().any(|w| w == word);
    let wanted: Vec<&str> = CALLS.into_iter().filter(|c| named(c) || !CALLS.iter().any(|c| named(c))).collect();
    let mut bench = Bench { timed: !named("stack"), rows: Vec::new() };
    if calls::linked_check().is_none() {
        println!("{}; only the Rust side is timed", calls::ABSENT);
    }
    if wanted.contains(&"check") {
        bench.check();
    }
    let mut alone = String::new();
    for l in lowerings().iter().filter(|l| wanted.contains(&l.name)) {
        deep::large(|| bench.lowering(l));
        if bench.timed {
            let us = deep::large(|| l.alone());
            alone += &format!("{}: of the Rust's time on typical packs, lowering alone: {us:.1} us\n", l.name);
        }
    }
    print!("{}\n{}{alone}{}", table(&mut bench.rows, &CALLS), summary(&bench.rows, &wanted), legend(bench.timed));
}

fn legend(timed: bool) -> String {
    if !timed {
        return "stack KB: the most that a call takes on a pack of the row\n".into();
    }
    format!(
        "microseconds a pack: the median of {FEWEST} to {TURNS} repetitions of at least {} ms, both sides in turn\n\
         check: against the harness's decoder; a lowering: against decoding, the reference's call and encoding\n\
         ~ the reference's call cannot do it, or only with gigabytes: the harness's shortcut is timed\n\
         - the Rust side would take minutes: only the linked call is timed\n",
        TURN.as_millis()
    )
}

struct Bench {
    timed: bool,
    rows: Vec<Row>,
}

impl Bench {
    fn check(&mut self) {
        let linked = calls::linked_check();
        // SAFETY: the pointer and the length are those of the pack.
        let call = linked.map(|f| move |p: &[u8]| unsafe { f(p.as_ptr(), p.len()) });
        let mut sets = sets::usual(&|p| decode(p).is_ok());
        sets.extend(sets::check());
        for (i, set) in sets.iter().enumerate() {
            say("check", i, sets.len(), set);
            let rattle = call.as_ref().map(|c| c as Side);
            self.row("check", set, "", Some(&|p| decode(p).is_ok() as u64), rattle);
        }
    }

    fn lowering(&mut self, l: &Lowering) {
        let call = l.linked.map(|f| move |p: &[u8]| lower(f, p));
        let rattle = call.as_ref().map(|c| c as Side);
        let (sets, vast) = (l.sets(), l.vast());
        let all = sets.len() + vast.len();
        for (i, set) in sets.iter().enumerate() {
            say(l.name, i, all, set);
            let plain = l.plain(set);
            self.row(l.name, set, if plain { "" } else { " ~" }, Some(&|p| l.rust(plain, p)), rattle);
        }
        for (i, set) in vast.iter().enumerate() {
            say(l.name, sets.len() + i, all, set);
            self.row(l.name, set, "", None, rattle);
        }
    }

    fn row(&mut self, call: &'static str, set: &Set, mark: &str, rust: Option<Side>, rattle: Option<Side>) {
        let [rust, times] = if self.timed { time(set, [rust, rattle]) } else { [None, None] };
        let count = set.packs.len();
        self.rows.push(Row {
            call,
            size: set.size,
            packs: format!("{}{mark}", set.name),
            count,
            bytes: set.packs.iter().map(|p| p.len()).sum::<usize>() / count,
            rust,
            rattle: times,
            stack: rattle.map(|call| stack(set, call)),
        });
    }
}

/// Where the run stands.
fn say(call: &str, done: usize, all: usize, set: &Set) {
    eprintln!("{call} {} of {all}: {}", done + 1, set.name);
}
