//! What a call gives for a pack, first without buffer lengths, then with them.

use crate::decode::{decode, Refusal};
use crate::encode::encode;
use crate::package::Package;

/// What a call comes to, whatever the buffers.
#[derive(Debug, Clone, PartialEq)]
pub enum Outcome {
    /// 1 to 5.
    Unreadable(Refusal),
    /// The check of a legal pack of this length.
    Legal(usize),
    /// 6 or 7: this report.
    Refused(Vec<u8>),
    /// 8.
    TooLong,
    /// 0 or 9: this pack.
    Lowered(Vec<u8>),
}

/// What is returned, and what each buffer begins with where it changes.
#[derive(Debug, Clone, PartialEq)]
pub struct Answer {
    pub number: u32,
    pub value: u32,
    pub output: Option<Vec<u8>>,
    pub report: Option<Vec<u8>>,
}

impl Answer {
    fn plain(number: u32, value: usize) -> Answer {
        Answer { number, value: value as u32, output: None, report: None }
    }

    /// As the C interface returns it.
    pub fn word(&self) -> u64 {
        (self.number as u64) << 32 | self.value as u64
    }
}

impl Outcome {
    /// What writing a package comes to.
    pub fn written(made: &Package) -> Outcome {
        match encode(made) {
            Ok(pack) => Outcome::Lowered(pack),
            Err(_) => Outcome::TooLong,
        }
    }

    pub fn answer(self, output_len: usize, report_len: usize) -> Answer {
        match self {
            Outcome::Unreadable(r) => Answer::plain(r.number, r.value as usize),
            Outcome::Legal(len) => Answer::plain(0, len),
            Outcome::Refused(report) if report.len() > report_len => Answer::plain(7, report.len()),
            Outcome::Refused(report) => Answer { report: Some(report.clone()), ..Answer::plain(6, report.len()) },
            Outcome::TooLong => Answer::plain(8, 0),
            Outcome::Lowered(pack) if pack.len() > output_len => Answer::plain(9, pack.len()),
            Outcome::Lowered(pack) => Answer { output: Some(pack.clone()), ..Answer::plain(0, pack.len()) },
        }
    }

    /// Bytes that the answer would write, if any.
    pub fn bytes(&self) -> usize {
        match self {
            Outcome::Refused(b) | Outcome::Lowered(b) => b.len(),
            _ => 0,
        }
    }
}

/// The check.
pub fn check(pack: &[u8]) -> Outcome {
    match decode(pack) {
        Ok(_) => Outcome::Legal(pack.len()),
        Err(refusal) => Outcome::Unreadable(refusal),
    }
}
