//! How much stack a call takes. It runs on a thread whose stack was painted,
//! and the paint that is left tells how deep it wrote.

use std::ffi::{c_int, c_ulong, c_void};
use std::hint::black_box;
use std::ptr;

/// The length of the stack, far above what any call takes.
const LENGTH: usize = 8 << 20;
const PAGE: usize = 4096;
const PAINT: u8 = 0xa5;

/// Larger than a pthread_attr_t is anywhere.
type Attributes = [u64; 32];
type Start = extern "C" fn(*mut c_void) -> *mut c_void;

extern "C" {
    fn pthread_attr_init(attributes: *mut Attributes) -> c_int;
    fn pthread_attr_setstack(attributes: *mut Attributes, stack: *mut c_void, length: usize) -> c_int;
    fn pthread_attr_destroy(attributes: *mut Attributes) -> c_int;
    fn pthread_create(
        thread: *mut c_ulong,
        attributes: *const Attributes,
        start: Start,
        given: *mut c_void,
    ) -> c_int;
    fn pthread_join(thread: c_ulong, returned: *mut *mut c_void) -> c_int;
}

/// A call, and where the stack stands when it begins.
struct Run<'a> {
    call: &'a mut dyn FnMut(),
    top: usize,
}

/// The bytes of stack that a call takes. It cannot be less than what the end
/// of the thread takes, which is that of an empty call.
pub fn taken<T>(mut call: impl FnMut() -> T) -> usize {
    let mut call = || drop(black_box(call()));
    // What is done only once, such as the binding of names, must not count.
    call();
    depth(&mut call)
}

/// How far below its beginning a call writes to a painted stack.
fn depth(call: &mut dyn FnMut()) -> usize {
    let mut memory = vec![PAINT; LENGTH + PAGE];
    let start = memory.as_ptr().align_offset(PAGE);
    let stack = &mut memory[start..start + LENGTH];
    let mut run = Run { call, top: 0 };
    run_on(stack, &mut run);
    let painted = stack.iter().take_while(|&&byte| byte == PAINT).count();
    run.top - (stack.as_ptr() as usize + painted)
}

/// Runs a call on a thread with the given stack, and waits for its end.
fn run_on(stack: &mut [u8], run: &mut Run) {
    let mut attributes: Attributes = [0; 32];
    let mut thread = 0;
    // SAFETY: stack and call outlive the thread, which is joined here; nothing
    // else looks at them meanwhile.
    let failures = unsafe {
        [
            pthread_attr_init(&mut attributes),
            pthread_attr_setstack(&mut attributes, stack.as_mut_ptr().cast(), stack.len()),
            pthread_create(&mut thread, &attributes, start, (run as *mut Run).cast()),
            pthread_join(thread, ptr::null_mut()),
            pthread_attr_destroy(&mut attributes),
        ]
    };
    assert_eq!(failures, [0; 5], "the thread cannot be run");
}

extern "C" fn start(run: *mut c_void) -> *mut c_void {
    let here = black_box(0u8);
    // SAFETY: it points to what `run_on` was given.
    let run = unsafe { &mut *run.cast::<Run>() };
    run.top = &raw const here as usize;
    (run.call)();
    ptr::null_mut()
}

#[cfg(test)]
mod tests {
    use super::*;

    #[test]
    fn a_large_array_is_seen() {
        let bytes = taken(|| [7u8; 100_000]);
        assert!((100_000..300_000).contains(&bytes), "{bytes}");
    }

    #[test]
    fn an_empty_call_takes_next_to_nothing() {
        let bytes = taken(|| ());
        assert!(bytes < 1_000, "{bytes}");
    }
}
