//! Memory to lend to calls: rooms between pages that nobody may touch, with guard bytes around
//! what is lent inside a room.

use crate::rng::Rng;

const PAGE: usize = 4096;
/// Longer than any report: a pack refuses fewer than 4,700 machines, with at most three names each.
const ROOM: usize = 1024 * PAGE;
/// Bytes watched on each side of a buffer, as far as the room goes.
const GUARD: usize = 64;

mod c {
    pub const READ_WRITE: i32 = 3;
    pub const PRIVATE_ANONYMOUS: i32 = 0x22;
    extern "C" {
        pub fn mmap(at: *mut u8, len: usize, prot: i32, flags: i32, file: i32, offset: i64) -> *mut u8;
        pub fn mprotect(at: *mut u8, len: usize, prot: i32) -> i32;
        pub fn munmap(at: *mut u8, len: usize) -> i32;
    }
}

/// A mapping of `ROOM` bytes with a page without access on each side.
struct Room {
    start: *mut u8,
}

impl Room {
    fn new() -> Room {
        let len = ROOM + 2 * PAGE;
        // SAFETY: a fresh anonymous mapping; only the pages between its ends are opened.
        unsafe {
            let at = c::mmap(std::ptr::null_mut(), len, 0, c::PRIVATE_ANONYMOUS, -1, 0);
            assert!(at as isize != -1, "no memory for a room");
            let start = at.add(PAGE);
            assert_eq!(c::mprotect(start, ROOM, c::READ_WRITE), 0, "no access to a room");
            Room { start }
        }
    }

    fn bytes(&self) -> &[u8] {
        // SAFETY: the room is mapped for reading and writing as long as it lives.
        unsafe { std::slice::from_raw_parts(self.start, ROOM) }
    }

    fn bytes_mut(&mut self) -> &mut [u8] {
        // SAFETY: as above, and this is the only reference.
        unsafe { std::slice::from_raw_parts_mut(self.start, ROOM) }
    }
}

impl Drop for Room {
    fn drop(&mut self) {
        // SAFETY: the mapping made in `new`.
        unsafe { c::munmap(self.start.sub(PAGE), ROOM + 2 * PAGE) };
    }
}

/// Fresh bytes differ from place to place, so that a copy within a buffer shows too.
fn fresh(i: usize) -> u8 {
    (i as u8).wrapping_mul(31) ^ 0xa5
}

/// A buffer that is lent again and again, each time in a fresh state.
pub struct Lent {
    room: Room,
    at: usize,
    len: usize,
}

impl Default for Lent {
    fn default() -> Self {
        Lent { room: Room::new(), at: GUARD, len: 0 }
    }
}

impl Lent {
    /// A fresh buffer: against the end of the room, against its start, or off both.
    pub fn fresh(&mut self, len: usize, rng: &mut Rng) {
        self.at = match rng.below(3) {
            0 => ROOM - len,
            1 => 0,
            _ => GUARD,
        };
        self.len = len;
        let around = self.around();
        let first = around.start;
        for (i, b) in self.room.bytes_mut()[around].iter_mut().enumerate() {
            *b = fresh(first + i);
        }
    }

    /// A buffer that holds these bytes.
    pub fn holding(&mut self, bytes: &[u8], rng: &mut Rng) {
        self.fresh(bytes.len(), rng);
        self.room.bytes_mut()[self.at..self.at + self.len].copy_from_slice(bytes);
    }

    pub fn body(&self) -> &[u8] {
        &self.room.bytes()[self.at..self.at + self.len]
    }

    pub fn pointer(&mut self) -> *mut u8 {
        self.room.bytes_mut()[self.at..].as_mut_ptr()
    }

    /// The buffer with the guard bytes that fit in the room.
    fn around(&self) -> std::ops::Range<usize> {
        self.at.saturating_sub(GUARD)..(self.at + self.len + GUARD).min(ROOM)
    }

    /// The first byte that is not as it should be, counted from the buffer's start: the buffer
    /// begins with `begins`, and all else is fresh.
    pub fn fault(&self, begins: &[u8]) -> Option<isize> {
        let written = self.at..self.at + begins.len();
        let room = self.room.bytes();
        let good = |i: usize| {
            let want = if written.contains(&i) { begins[i - self.at] } else { fresh(i) };
            room[i] == want
        };
        self.around().find(|&i| !good(i)).map(|i| i as isize - self.at as isize)
    }
}

/// The three buffers of a call.
#[derive(Default)]
pub struct Ground {
    pub pack: Lent,
    pub output: Lent,
    pub report: Lent,
}
