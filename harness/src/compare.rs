//! Runs calls on packs and holds all they did to what was expected: the word returned, every
//! byte of every buffer, the bytes around each buffer, and the pack itself.

use crate::answer::{Answer, Outcome};
use crate::calls::{Call, Function};
use crate::ground::Ground;
use crate::rng::Rng;
use std::fmt::Write;

/// The memory that calls are lent, and the numbers by which it is laid out.
pub struct Judge {
    ground: Ground,
    rng: Rng,
}

impl Judge {
    pub fn new(seed: u64) -> Judge {
        Judge { ground: Ground::default(), rng: Rng::new(seed) }
    }
}

/// What went wrong, in words; nothing if all is as expected.
pub fn fault(judge: &mut Judge, call: &Call, pack: &[u8], lens: (usize, usize), want: &Answer) -> Option<String> {
    let Judge { ground: Ground { pack: lent, output, report }, rng } = judge;
    lent.holding(pack, rng);
    output.fresh(lens.0, rng);
    report.fresh(lens.1, rng);
    let (at, len) = (lent.pointer(), pack.len());
    // SAFETY: every pointer is that of a live buffer of the length given with it.
    let got = unsafe {
        match call.function {
            Function::Check(f) => f(at, len),
            Function::Lower(f) => f(at, len, output.pointer(), lens.0, report.pointer(), lens.1),
        }
    };
    let mut text = String::new();
    if got != want.word() {
        let _ = write!(text, "returned {} {}, expected {} {}; ", got >> 32, got & 0xffff_ffff, want.number, want.value);
    }
    let empty: &[u8] = &[];
    let buffers = [
        ("pack", lent, pack),
        ("output", output, want.output.as_deref().unwrap_or(empty)),
        ("report", report, want.report.as_deref().unwrap_or(empty)),
    ];
    for (name, buffer, begins) in buffers {
        if let Some(at) = buffer.fault(begins) {
            let _ = write!(text, "{name} differs at {at}: holds {}, expected {}; ", hex(buffer.body()), hex(begins));
        }
    }
    (!text.is_empty()).then_some(text)
}

/// Buffer lengths worth trying for one buffer: none, one too few, the exact one, some more, the most, any.
const KINDS: usize = 6;

fn length(rng: &mut Rng, kind: usize, need: usize) -> usize {
    match kind {
        0 => 0,
        1 => need.saturating_sub(1),
        2 => need,
        3 => need + rng.range(1, 100),
        4 => 65_536.max(need),
        _ => rng.below(need + 2),
    }
}

/// The lengths of output and report to call with: each kind for the buffer that would be written to, with any kind for
/// the other; two pairs of any kind where nothing would be.
fn lengths(rng: &mut Rng, outcome: &Outcome) -> Vec<(usize, usize)> {
    let need = outcome.bytes();
    let mut any = |kind: Option<usize>| {
        let kind = kind.unwrap_or_else(|| rng.below(KINDS));
        length(rng, kind, need)
    };
    match outcome {
        Outcome::Lowered(_) => (0..KINDS).map(|k| (any(Some(k)), any(None))).collect(),
        Outcome::Refused(_) => (0..KINDS).map(|k| (any(None), any(Some(k)))).collect(),
        _ => (0..2).map(|_| (any(None), any(None))).collect(),
    }
}

/// Holds one call on one pack to the reference: how often it was called; `None` where the reference cannot tell.
pub fn one(judge: &mut Judge, call: &Call, pack: &[u8]) -> Option<Result<u64, String>> {
    let outcome = (call.expected)(pack)?;
    let all = match call.function {
        Function::Check(_) => vec![(0, 0)],
        Function::Lower(_) => lengths(&mut judge.rng, &outcome),
    };
    for &lens in &all {
        let want = outcome.clone().answer(lens.0, lens.1);
        if let Some(text) = fault(judge, call, pack, lens, &want) {
            return Some(Err(format!(
                "{} (output {}, report {}): {text}\n  pack ({} bytes): {}",
                call.name,
                lens.0,
                lens.1,
                pack.len(),
                hex(pack)
            )));
        }
    }
    Some(Ok(all.len() as u64))
}

pub fn hex(bytes: &[u8]) -> String {
    let mut text = String::with_capacity(bytes.len() * 2);
    for b in bytes {
        let _ = write!(text, "{b:02x}");
    }
    text
}

#[derive(Debug, Clone, Copy, Default, PartialEq)]
pub struct Tally {
    /// Packs.
    pub compared: u64,
    /// Calls, of which a pack gets several.
    pub calls: u64,
    pub different: u64,
    pub skipped: u64,
}

/// Compares one pack through every call.
pub fn pack(judge: &mut Judge, calls: &[Call], pack: &[u8], tally: &mut Tally, say: &mut dyn FnMut(String)) {
    let mut differs = false;
    for call in calls {
        match one(judge, call, pack) {
            None => tally.skipped += 1,
            Some(Ok(calls)) => tally.calls += calls,
            Some(Err(text)) => {
                differs = true;
                say(text);
            }
        }
    }
    tally.compared += 1;
    tally.different += differs as u64;
}

#[cfg(test)]
mod tests {
    use super::*;
    use crate::calls::expected_check;
    use crate::stream::{Aim, Stream};

    unsafe extern "C" fn right(pack: *const u8, len: usize) -> u64 {
        let pack = std::slice::from_raw_parts(pack, len);
        crate::answer::check(pack).answer(0, 0).word()
    }

    unsafe extern "C" fn off_by_one(pack: *const u8, len: usize) -> u64 {
        let word = right(pack, len);
        word + (word >> 32 == 4) as u64
    }

    /// Answers rightly, but writes to the byte after the pack.
    unsafe extern "C" fn scribbles(pack: *const u8, len: usize) -> u64 {
        let next = (pack as *mut u8).add(len);
        // Not where the room ends.
        if !(next as usize).is_multiple_of(4096) {
            *next ^= 1;
        }
        right(pack, len)
    }

    /// A call on the packs of a stream: what was counted, and what was said.
    fn tallied(call: Call, seed: u64, mut packs: Stream, count: usize) -> (Tally, Vec<String>) {
        let calls = [call];
        let mut tally = Tally::default();
        let mut said = Vec::new();
        let mut judge = Judge::new(seed);
        for _ in 0..count {
            pack(&mut judge, &calls, &packs.pack(), &mut tally, &mut |text| said.push(text));
        }
        (tally, said)
    }

    fn run(function: crate::calls::CheckFn, count: usize) -> (Tally, Vec<String>) {
        let call = Call { name: "check", function: Function::Check(function), expected: expected_check };
        tallied(call, 1, Stream::new(7, Aim::Check), count)
    }

    #[test]
    fn a_right_call_passes() {
        assert_eq!(run(right, 3_000), (Tally { compared: 3_000, calls: 3_000, different: 0, skipped: 0 }, vec![]));
    }

    #[test]
    fn a_wrong_value_is_found() {
        let (tally, said) = run(off_by_one, 30_000);
        assert!(tally.different > 0 && tally.different < tally.compared / 10);
        assert!(said[0].contains("returned 4") && said[0].contains("pack ("));
    }

    #[test]
    fn a_byte_past_the_pack_is_found() {
        let (tally, said) = run(scribbles, 100);
        assert!(tally.different > 50 && tally.different < 100, "{tally:?}");
        assert!(said[0].contains("pack differs at"));
    }

    /// The reference behind the C interface.
    unsafe extern "C" fn lowers(p: *const u8, n: usize, o: *mut u8, on: usize, r: *mut u8, rn: usize) -> u64 {
        let pack = std::slice::from_raw_parts(p, n);
        let want = crate::machines::expected(pack).expect("the reference can tell").answer(on, rn);
        for (made, to) in [(&want.output, o), (&want.report, r)] {
            if let Some(bytes) = made {
                std::ptr::copy_nonoverlapping(bytes.as_ptr(), to, bytes.len());
            }
        }
        want.word()
    }

    /// The same, but takes a buffer that is exactly long enough for too short.
    unsafe extern "C" fn wants_more(p: *const u8, n: usize, o: *mut u8, on: usize, r: *mut u8, rn: usize) -> u64 {
        lowers(p, n, o, on.saturating_sub(1), r, rn)
    }

    /// The same, but cleans the report first.
    unsafe extern "C" fn cleans(p: *const u8, n: usize, o: *mut u8, on: usize, r: *mut u8, rn: usize) -> u64 {
        std::slice::from_raw_parts_mut(r, rn).fill(0);
        lowers(p, n, o, on, r, rn)
    }

    fn run_lowering(function: crate::calls::LowerFn, count: usize) -> (Tally, Vec<String>) {
        tallied(crate::calls::machines(function), 3, Stream::new(8, Aim::Lower), count)
    }

    #[test]
    fn a_right_lowering_passes() {
        let (tally, said) = run_lowering(lowers, 1_000);
        assert_eq!((tally.compared, tally.different, said), (1_000, 0, vec![]));
        assert!(tally.calls > 4_500, "{tally:?}");
    }

    #[test]
    fn a_buffer_that_fits_must_be_taken() {
        let (tally, said) = run_lowering(wants_more, 200);
        assert!(tally.different > 100 && said[0].contains("returned 9"), "{tally:?}");
    }

    #[test]
    fn a_report_must_stay_where_nothing_is_refused() {
        let (tally, said) = run_lowering(cleans, 200);
        assert!(tally.different > 150 && said[0].contains("report differs at 0"), "{tally:?}");
    }

    unsafe extern "C" fn writes_too_much(
        _: *const u8,
        _: usize,
        out: *mut u8,
        len: usize,
        _: *mut u8,
        _: usize,
    ) -> u64 {
        std::slice::from_raw_parts_mut(out, len).fill(0);
        12
    }

    fn twelve(pack: &[u8]) -> Option<Outcome> {
        Some(Outcome::Lowered(pack[..12].to_vec()))
    }

    #[test]
    fn a_byte_past_the_result_is_found() {
        let call = Call { name: "machines", function: Function::Lower(writes_too_much), expected: twelve };
        let want = twelve(&[0; 12]).unwrap();
        let mut judge = Judge::new(2);
        let mut fault =
            |lens: (usize, usize)| fault(&mut judge, &call, &[0; 12], lens, &want.clone().answer(lens.0, lens.1));
        assert_eq!(fault((12, 0)), None);
        let said = fault((13, 0)).unwrap();
        assert!(said.starts_with("output differs at 12"));
        // Too short a buffer must stay as it was.
        let said = fault((11, 0)).unwrap();
        assert!(said.contains("expected 9 12") && said.contains("output differs at 0"));
    }
}
