//! The report on refused definitions.

use reference::state_machine::LowerError;
use reference::ActLowerError;

/// One refused definition: the kind and the error's names.
#[derive(Debug, Clone, PartialEq)]
pub struct Refused {
    pub kind: u8,
    pub names: Vec<String>,
}

fn refused(kind: u8, names: &[&String]) -> Refused {
    Refused { kind, names: names.iter().map(|n| n.to_string()).collect() }
}

impl Refused {
    pub fn too_large(machine: &str) -> Refused {
        Refused { kind: 17, names: vec![machine.to_string()] }
    }

    pub fn empty_left(activation: &str) -> Refused {
        Refused { kind: 18, names: vec![activation.to_string()] }
    }
}

impl From<&LowerError> for Refused {
    fn from(e: &LowerError) -> Refused {
        match e {
            LowerError::NoStates(m) => refused(1, &[m]),
            LowerError::UnknownInitialState(m, s) => refused(2, &[m, s]),
            LowerError::UnknownTarget(m, s, t) => refused(3, &[m, s, t]),
            LowerError::OutputUnassigned(m, o, s) => refused(4, &[m, o, s]),
            LowerError::DuplicateState(m, s) => refused(5, &[m, s]),
            LowerError::UnknownRefine(m, s, t) => refused(6, &[m, s, t]),
            LowerError::RefineCycle(m, t) => refused(7, &[m, t]),
            LowerError::UnknownOwner(m, o) => refused(8, &[m, o]),
        }
    }
}

impl From<&ActLowerError> for Refused {
    fn from(e: &ActLowerError) -> Refused {
        match e {
            ActLowerError::NoBranches(a) => refused(9, &[a]),
            ActLowerError::NoOutputs(a) => refused(10, &[a]),
            ActLowerError::OutputUnassigned(a, o, b) => refused(11, &[a, o, b]),
            ActLowerError::DuplicateBranch(a, b) => refused(12, &[a, b]),
            ActLowerError::UnknownOwner(a, o) => refused(13, &[a, o]),
            ActLowerError::LastArgs(a) => refused(14, &[a]),
            ActLowerError::LastUnknown(a, v) => refused(15, &[a, v]),
            ActLowerError::LastNeedsInit(a, v) => refused(16, &[a, v]),
        }
    }
}

/// The report's bytes.
pub fn report(all: &[Refused]) -> Vec<u8> {
    let mut out = (all.len() as u16).to_le_bytes().to_vec();
    for refused in all {
        out.push(refused.kind);
        for name in &refused.names {
            out.push(u8::try_from(name.len()).expect("reported names have at most 255 bytes"));
            out.extend_from_slice(name.as_bytes());
        }
    }
    out
}
