//! The calls under test, as the C interface has them.

use crate::answer::{self, Outcome};

pub type CheckFn = unsafe extern "C" fn(*const u8, usize) -> u64;
/// Pack, output buffer, report buffer, each with its length.
pub type LowerFn = unsafe extern "C" fn(*const u8, usize, *mut u8, usize, *mut u8, usize) -> u64;

#[derive(Clone, Copy)]
pub enum Function {
    Check(CheckFn),
    Lower(LowerFn),
}

/// One call: its function, and what it should come to (nothing where that cannot be told).
#[derive(Clone, Copy)]
pub struct Call {
    pub name: &'static str,
    pub function: Function,
    pub expected: fn(&[u8]) -> Option<Outcome>,
}

pub fn expected_check(pack: &[u8]) -> Option<Outcome> {
    Some(answer::check(pack))
}

#[allow(dead_code)]
mod linked {
    extern "C" {
        #[cfg(has_check)]
        pub fn ol_pack_check(pack: *const u8, len: usize) -> u64;
        #[cfg(has_machines)]
        pub fn ol_lower_state_machines(p: *const u8, n: usize, o: *mut u8, on: usize, r: *mut u8, rn: usize) -> u64;
        #[cfg(has_activations)]
        pub fn ol_lower_activations(p: *const u8, n: usize, o: *mut u8, on: usize, r: *mut u8, rn: usize) -> u64;
    }
}

/// The check of the linked library, if it has one.
pub fn linked_check() -> Option<CheckFn> {
    #[cfg(has_check)]
    return Some(linked::ol_pack_check);
    #[cfg(not(has_check))]
    None
}

/// Lowering machines by the linked library, if it can.
pub fn linked_machines() -> Option<LowerFn> {
    #[cfg(has_machines)]
    return Some(linked::ol_lower_state_machines);
    #[cfg(not(has_machines))]
    None
}

/// Lowering activations by the linked library, if it can.
pub fn linked_activations() -> Option<LowerFn> {
    #[cfg(has_activations)]
    return Some(linked::ol_lower_activations);
    #[cfg(not(has_activations))]
    None
}

/// A lowering into these buffers: the returned word.
pub fn lower(f: LowerFn, pack: &[u8], output: &mut [u8], report: &mut [u8]) -> u64 {
    let (o, r) = (output.as_mut_ptr(), report.as_mut_ptr());
    // SAFETY: each pointer is that of a slice of the length given with it, and the borrows keep them apart.
    unsafe { f(pack.as_ptr(), pack.len(), o, output.len(), r, report.len()) }
}

/// Every call that the linked library has.
#[cfg(feature = "reference")]
pub fn linked() -> Vec<Call> {
    let check = linked_check().map(check);
    let machines = linked_machines().map(machines);
    let activations = linked_activations().map(activations);
    [check, machines, activations].into_iter().flatten().collect()
}

/// A check, held to the codec.
pub fn check(function: CheckFn) -> Call {
    Call { name: "check", function: Function::Check(function), expected: expected_check }
}

/// A lowering of machines, held to the reference.
#[cfg(feature = "reference")]
pub fn machines(function: LowerFn) -> Call {
    Call { name: "machines", function: Function::Lower(function), expected: crate::machines::expected }
}

/// A lowering of activations, held to the reference.
#[cfg(feature = "reference")]
pub fn activations(function: LowerFn) -> Call {
    Call { name: "activations", function: Function::Lower(function), expected: crate::activations::expected }
}

pub const ABSENT: &str = "no call is linked: run harness/library first (OL_LIBRARY names the library, ol_lower)";
