//! How much stack a call takes: it is made on a stack that holds a pattern, which is looked at afterwards.

use std::os::raw::c_void;

/// Far more than any call may take.
const SIZE: usize = 16 << 20;
const PATTERN: u8 = 0x5c;

mod c {
    use std::os::raw::c_void;

    /// `pthread_attr_t` on Linux, x86-64.
    #[repr(C, align(8))]
    pub struct Attributes(pub [u8; 56]);
    extern "C" {
        pub fn pthread_attr_init(attributes: *mut Attributes) -> i32;
        pub fn pthread_attr_setstack(attributes: *mut Attributes, at: *mut c_void, size: usize) -> i32;
        pub fn pthread_create(
            thread: *mut usize,
            attributes: *const Attributes,
            start: extern "C" fn(*mut c_void) -> *mut c_void,
            argument: *mut c_void,
        ) -> i32;
        pub fn pthread_join(thread: usize, result: *mut *mut c_void) -> i32;
    }
}

#[repr(align(4096))]
#[derive(Clone)]
struct Page([u8; 4096]);

struct Job<'a> {
    work: &'a mut (dyn FnMut() + Send),
    /// Where the stack stands as the work begins.
    top: usize,
}

extern "C" fn start(job: *mut c_void) -> *mut c_void {
    let here = 0u8;
    // SAFETY: `used` passes a job that outlives the thread.
    let job = unsafe { &mut *(job as *mut Job) };
    job.top = &here as *const u8 as usize;
    (job.work)();
    std::ptr::null_mut()
}

/// Bytes of stack that `work` takes: from where it begins down to the deepest that was touched.
pub fn used(work: &mut (dyn FnMut() + Send)) -> usize {
    let mut stack = vec![Page([PATTERN; 4096]); SIZE / 4096];
    let mut job = Job { work, top: 0 };
    let mut attributes = c::Attributes([0; 56]);
    let mut thread = 0;
    // SAFETY: the stack and the job are there until the thread has ended.
    unsafe {
        assert_eq!(c::pthread_attr_init(&mut attributes), 0);
        assert_eq!(c::pthread_attr_setstack(&mut attributes, stack.as_mut_ptr().cast(), SIZE), 0);
        let job: *mut Job = &mut job;
        assert_eq!(c::pthread_create(&mut thread, &attributes, start, job.cast()), 0);
        assert_eq!(c::pthread_join(thread, std::ptr::null_mut()), 0);
    }
    let touched = stack.iter().flat_map(|page| page.0.iter()).position(|b| *b != PATTERN);
    let deepest = stack.as_ptr() as usize + touched.unwrap_or(SIZE);
    job.top.saturating_sub(deepest)
}

#[cfg(test)]
mod tests {
    use super::*;
    use std::hint::black_box;

    #[test]
    fn an_array_is_found() {
        let mut sum = 0;
        let used = used(&mut || {
            let mut array = [1u8; 300_000];
            sum = black_box(&mut array).iter().map(|b| *b as usize).sum();
        });
        assert_eq!(sum, 300_000);
        assert!((300_000..700_000).contains(&used), "{used}");
    }
}
