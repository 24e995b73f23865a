//! A pack, its machines lowered, and the activations of the result lowered: by the proved library where it is linked,
//! else by the reference.

use super::{answers, page};
use crate::answer::{Answer, Outcome};
use crate::calls::{self, LowerFn};
use crate::decode::decode;
use crate::package::{Package, MAX_PACK};
#[cfg(feature = "reference")]
use crate::{activations, machines};

/// One lowering: the package that it wrote, or the answer by which it refused.
pub type Step = Result<Package, Answer>;

pub struct Steps {
    pub before: Package,
    pub machines: Step,
    /// Not made where machines are refused.
    pub activations: Option<Step>,
}

type Expected = fn(&[u8]) -> Option<Outcome>;

/// Lowering machines and activations by the reference, where its files are there.
#[cfg(feature = "reference")]
const REFERENCE: [Option<Expected>; 2] = [Some(machines::expected), Some(activations::expected)];
#[cfg(not(feature = "reference"))]
const REFERENCE: [Option<Expected>; 2] = [None, None];

/// Who lowers; nothing where nobody can.
pub fn by() -> Option<&'static str> {
    let reference = "lowered by the Rust reference: harness/library proves and builds the library, some 20 minutes";
    let library = calls::linked_activations().map(|_| "lowered by the proved library");
    library.or(REFERENCE[1].map(|_| reference))
}

/// Both lowerings of a pack that can be read.
pub fn steps(pack: &[u8], before: Package) -> Steps {
    let [machines, activations] = REFERENCE;
    let first = lower(calls::linked_machines(), machines, pack);
    let second = first.output.as_deref().map(|pack| lower(calls::linked_activations(), activations, pack));
    Steps { before, machines: read(first), activations: second.map(read) }
}

fn read(answer: Answer) -> Step {
    match &answer.output {
        Some(pack) => Ok(decode(pack).expect("a lowering writes a whole pack")),
        None => Err(answer),
    }
}

fn lower(linked: Option<LowerFn>, expected: Option<Expected>, pack: &[u8]) -> Answer {
    let Some(f) = linked else {
        let outcome = expected.and_then(|expected| expected(pack)).expect("the reference stands in for the library");
        return outcome.answer(MAX_PACK, usize::MAX);
    };
    let (mut output, mut report) = (vec![0; MAX_PACK], vec![0; MAX_PACK]);
    let mut word = calls::lower(f, pack, &mut output, &mut report);
    if word >> 32 == 7 {
        // A report may be longer than a pack; how long it is was answered.
        report = vec![0; word as u32 as usize];
        word = calls::lower(f, pack, &mut output, &mut report);
    }
    let (number, value) = ((word >> 32) as u32, word as u32);
    let begins = |buffer: &[u8], on: u32| (number == on).then(|| buffer[..value as usize].to_vec());
    Answer { number, value, output: begins(&output, 0), report: begins(&report, 6) }
}

/// The package, then what each lowering made of it, under headings.
pub fn text(pack: &[u8], before: Package) -> String {
    let steps = steps(pack, before);
    let mut out = format!("== The package\n\n{}\n", page::package(&steps.before));
    out += &step("machines", &steps.machines, steps.before.machines.is_empty());
    match (&steps.machines, &steps.activations) {
        (Ok(before), Some(step_two)) => {
            out += &format!("\n{}", step("activations", step_two, before.activations.is_empty()))
        }
        _ => out += "\n== Lowering activations: not made, since machines are refused\n",
    }
    out
}

fn step(what: &str, step: &Step, nothing: bool) -> String {
    match step {
        Ok(_) if nothing => format!("== After lowering {what}: as before, there are none\n"),
        Ok(p) => format!("== After lowering {what}\n\n{}", page::package(p)),
        Err(answer) => format!("== Lowering {what}: refused\n\n{}", refusal(answer)),
    }
}

/// A refusal in words, with the lines of its report.
pub fn refusal(answer: &Answer) -> String {
    let lines = answer.report.as_deref().map_or(vec![], answers::report);
    let lines: String = lines.iter().map(|line| format!("  {line}\n")).collect();
    let report = if lines.is_empty() { lines } else { format!("the report\n{lines}") };
    format!("{}{report}", answers::answer(answer.number, answer.value))
}
