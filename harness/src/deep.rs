//! The reference recurses over expressions, so it gets a stack that the deepest pack fits in.

use std::cell::Cell;

const STACK: usize = 1 << 30;
/// Packs this short cannot nest deep enough to matter.
const SHORT: usize = 512;

thread_local! {
    static LARGE: Cell<bool> = const { Cell::new(false) };
}

/// Runs `f` with a large stack; nested uses stay on the thread they are on.
pub fn large<T: Send>(f: impl FnOnce() -> T + Send) -> T {
    if LARGE.get() {
        return f();
    }
    let marked = || {
        LARGE.set(true);
        f()
    };
    std::thread::scope(|scope| {
        let thread = std::thread::Builder::new().stack_size(STACK).spawn_scoped(scope, marked);
        thread.expect("a thread with a large stack").join().expect("the thread with a large stack panicked")
    })
}

/// The same, unless a pack of this length needs no such stack.
pub fn run<T: Send>(pack_len: usize, f: impl FnOnce() -> T + Send) -> T {
    if pack_len <= SHORT {
        f()
    } else {
        large(f)
    }
}
