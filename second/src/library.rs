//! The library of include/skeleton.h as a side of the calls.

use std::ptr;

use crate::calls::Calls;

extern "C" {
    fn skeleton_search(
        marks: *const i32,
        marks_length: usize,
        status: *mut u8,
        status_length: usize,
        budget: u32,
        result: *mut u64,
        result_length: usize,
    ) -> u32;

    fn skeleton_certificate(
        marks: *const i32,
        marks_length: usize,
        status: *const u8,
        status_length: usize,
        a: usize,
        b: usize,
        result: *mut u64,
        result_length: usize,
    ) -> u32;

    fn skeleton_pair(a: usize, b: usize, result: *mut u64, result_length: usize) -> u32;

    fn skeleton_longest_budget(n: usize, result: *mut u64, result_length: usize) -> u32;

    fn skeleton_version() -> u32;
}

pub struct Library;

impl Calls for Library {
    fn search(
        &self,
        list: Option<&[i32]>,
        status: Option<&mut [u8]>,
        budget: u32,
        result: Option<&mut [u64]>,
    ) -> u32 {
        let ((list, numbers), (status, bytes), (result, room)) =
            (read(list), written(status), written(result));
        // SAFETY: each pointer is null with length 0 or that of a slice of its length, and none overlap.
        unsafe { skeleton_search(list, numbers, status, bytes, budget, result, room) }
    }

    fn certificate(
        &self,
        list: Option<&[i32]>,
        status: Option<&[u8]>,
        (a, b): (usize, usize),
        result: Option<&mut [u64]>,
    ) -> u32 {
        let ((list, numbers), (status, bytes), (result, room)) = (read(list), read(status), written(result));
        // SAFETY: as above.
        unsafe { skeleton_certificate(list, numbers, status, bytes, a, b, result, room) }
    }

    fn pair(&self, a: usize, b: usize, result: Option<&mut [u64]>) -> u32 {
        let (result, room) = written(result);
        // SAFETY: as above.
        unsafe { skeleton_pair(a, b, result, room) }
    }

    fn longest_budget(&self, n: usize, result: Option<&mut [u64]>) -> u32 {
        let (result, room) = written(result);
        // SAFETY: as above.
        unsafe { skeleton_longest_budget(n, result, room) }
    }

    fn version(&self) -> u32 {
        // SAFETY: it takes nothing.
        unsafe { skeleton_version() }
    }
}

/// Pointer and length of a slice that is only read.
fn read<T>(slice: Option<&[T]>) -> (*const T, usize) {
    slice.map_or((ptr::null(), 0), |slice| (slice.as_ptr(), slice.len()))
}

/// Pointer and length of a slice that may be written.
fn written<T>(slice: Option<&mut [T]>) -> (*mut T, usize) {
    slice.map_or((ptr::null_mut(), 0), |slice| (slice.as_mut_ptr(), slice.len()))
}
