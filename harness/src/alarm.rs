//! A call that stops the program or does not return: says on which pack it was, then ends.

use crate::compare::hex;
use std::sync::atomic::{AtomicPtr, AtomicU64, AtomicUsize, Ordering::Relaxed};

static SEED: AtomicU64 = AtomicU64::new(0);
static NUMBER: AtomicU64 = AtomicU64::new(0);
static PACK: AtomicPtr<u8> = AtomicPtr::new(std::ptr::null_mut());
static LEN: AtomicUsize = AtomicUsize::new(0);

/// Illegal instruction, abort, bus error, arithmetic, memory access, alarm clock.
const SIGNALS: [i32; 6] = [4, 6, 7, 8, 11, 14];
/// No pack that is made at random takes nearly as long.
pub const SECONDS: u32 = 30;

mod c {
    /// The handler is run on a stack of its own: the thread's may be used up.
    pub const ON_STACK: i32 = 0x0800_0000;
    /// As on Linux, x86-64.
    #[repr(C)]
    pub struct Action {
        pub handler: extern "C" fn(i32),
        pub mask: [u64; 16],
        pub flags: i32,
        pub restorer: usize,
    }
    extern "C" {
        pub fn sigaction(number: i32, action: *const Action, old: *mut Action) -> i32;
        pub fn alarm(seconds: u32) -> u32;
        pub fn _exit(status: i32) -> !;
    }
}

extern "C" fn stopped(signal: i32) {
    let (seed, number) = (SEED.load(Relaxed), NUMBER.load(Relaxed));
    println!("seed {seed}, pack {number}: stopped by signal {signal}");
    // SAFETY: the pack that `during` lends is there until it returns, which it has not.
    let pack = unsafe { std::slice::from_raw_parts(PACK.load(Relaxed), LEN.load(Relaxed)) };
    println!("  pack ({} bytes): {}", pack.len(), hex(pack));
    // SAFETY: ends the program at once.
    unsafe { c::_exit(3) }
}

pub fn watch(seed: u64) {
    SEED.store(seed, Relaxed);
    let action = c::Action { handler: stopped, mask: [0; 16], flags: c::ON_STACK, restorer: 0 };
    for number in SIGNALS {
        // SAFETY: the handler only reads the pack at hand, writes two lines and ends the program.
        unsafe { c::sigaction(number, &action, std::ptr::null_mut()) };
    }
}

/// Does `work`, which is about this pack and may take so long.
pub fn during<T>(number: u64, pack: &[u8], seconds: u32, work: impl FnOnce() -> T) -> T {
    NUMBER.store(number, Relaxed);
    PACK.store(pack.as_ptr() as *mut u8, Relaxed);
    LEN.store(pack.len(), Relaxed);
    // SAFETY: sets the clock of this process.
    unsafe { c::alarm(seconds) };
    work()
}
