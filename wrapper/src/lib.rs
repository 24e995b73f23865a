//! The check and both lowerings on slices. Safe: the proved functions ask nothing of their caller but three slices that do
//! not overlap, which the borrows give. A call needs less than 1 MiB of stack.

mod c {
    extern "C" {
        pub fn ol_pack_check(pack: *const u8, length: usize) -> u64;
        pub fn ol_lower_state_machines(
            pack: *const u8,
            length: usize,
            output: *mut u8,
            room: usize,
            report: *mut u8,
            report_room: usize,
        ) -> u64;
        pub fn ol_lower_activations(
            pack: *const u8,
            length: usize,
            output: *mut u8,
            room: usize,
            report: *mut u8,
            report_room: usize,
        ) -> u64;
    }
}

/// The most bytes of a pack, and so of a lowered one.
pub const PACK_MOST: usize = 65_536;

/// What a call answers: the ten numbers with their values.
#[derive(Debug, Clone, Copy, PartialEq, Eq)]
pub enum Answer {
    /// Bytes written to the output; of a check the pack's length.
    Done(usize),
    /// The pack is longer than this.
    TooLong(usize),
    /// The pack, of this length, ends early.
    EndsEarly(usize),
    /// An illegal field at this offset.
    Illegal(usize),
    /// A region of level 9 at this offset.
    TooDeep(usize),
    /// Bytes after the origins, from this offset.
    BytesAfter(usize),
    /// Definitions are refused: bytes written to the report, whose layout README.md of the repository has.
    Refused(usize),
    /// The report needs so many bytes.
    ReportRoom(usize),
    /// A made name over 255 bytes, or a lowered pack over 65,536.
    TooLarge,
    /// The lowered pack needs so many bytes.
    OutputRoom(usize),
}

impl Answer {
    fn of(word: u64) -> Answer {
        let value = word as u32 as usize;
        match word >> 32 {
            0 => Answer::Done(value),
            1 => Answer::TooLong(value),
            2 => Answer::EndsEarly(value),
            3 => Answer::Illegal(value),
            4 => Answer::TooDeep(value),
            5 => Answer::BytesAfter(value),
            6 => Answer::Refused(value),
            7 => Answer::ReportRoom(value),
            8 => Answer::TooLarge,
            9 => Answer::OutputRoom(value),
            number => unreachable!("the contract has no number {number}"),
        }
    }
}

/// Checks a pack.
pub fn pack_check(pack: &[u8]) -> Answer {
    // SAFETY: pointer and length are those of a slice.
    Answer::of(unsafe { c::ol_pack_check(pack.as_ptr(), pack.len()) })
}

/// Lowers the machines of a pack.
pub fn lower_state_machines(pack: &[u8], output: &mut [u8], report: &mut [u8]) -> Answer {
    let (o, r) = (output.as_mut_ptr(), report.as_mut_ptr());
    // SAFETY: each pointer and length are those of a slice, and the borrows keep the three apart.
    let word = unsafe { c::ol_lower_state_machines(pack.as_ptr(), pack.len(), o, output.len(), r, report.len()) };
    Answer::of(word)
}

/// Lowers the activations of a pack.
pub fn lower_activations(pack: &[u8], output: &mut [u8], report: &mut [u8]) -> Answer {
    let (o, r) = (output.as_mut_ptr(), report.as_mut_ptr());
    // SAFETY: as above.
    let word = unsafe { c::ol_lower_activations(pack.as_ptr(), pack.len(), o, output.len(), r, report.len()) };
    Answer::of(word)
}
