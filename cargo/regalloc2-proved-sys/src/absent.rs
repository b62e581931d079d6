//! The calls of a library that isn't linked. They read and write nothing.

/// A number that is no status of the library's.
const NO_LIBRARY: u32 = u32::MAX;

pub unsafe fn regalloc2_c_version() -> u32 {
    0
}

pub unsafe fn regalloc2_c_status_text(_: u32, _: *mut u8, _: usize) -> usize {
    0
}

pub unsafe fn regalloc2_c_fault_text(_: u32, _: *mut u8, _: usize) -> usize {
    0
}

pub unsafe fn regalloc2_c_allocate(_: *const u32, _: usize, _: *mut u32, _: usize, _: *mut usize) -> u32 {
    NO_LIBRARY
}

pub unsafe fn regalloc2_c_allocate_json(_: *const u8, _: usize, _: *mut u32, _: usize, _: *mut usize) -> u32 {
    NO_LIBRARY
}

pub unsafe fn regalloc2_c_allocate_text(_: *const u8, _: usize, _: *mut u32, _: usize, _: *mut usize) -> u32 {
    NO_LIBRARY
}

pub unsafe fn regalloc2_c_run(_: *const u32, _: usize, _: *mut u32, _: usize, _: *mut usize) -> u32 {
    NO_LIBRARY
}

#[allow(clippy::too_many_arguments, reason = "the call has as many")]
pub unsafe fn regalloc2_c_judge(
    _: *const u32,
    _: usize,
    _: u64,
    _: *const u32,
    _: usize,
    _: *const u32,
    _: usize,
    _: *const u32,
    _: usize,
    _: *mut u32,
    _: usize,
    _: *mut usize,
) -> u32 {
    NO_LIBRARY
}

pub unsafe fn regalloc2_c_check(_: *const u32, _: usize, _: *const u32, _: usize) -> u32 {
    NO_LIBRARY
}
