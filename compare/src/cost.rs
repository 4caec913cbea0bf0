//! What a call takes: time, and memory.

use std::os::raw::{c_int, c_ulong};

extern "C" {
    fn clock_gettime(clock: c_int, time: *mut [i64; 2]) -> c_int;
    fn getrusage(who: c_int, usage: *mut [i64; 18]) -> c_int;
    fn malloc_trim(kept: usize) -> c_int;
    fn prctl(option: c_int, is_on: c_ulong, unused: c_ulong, too: c_ulong, as_well: c_ulong) -> c_int;
}

/// Keeps the compiler from knowing a number. The standard library's function for it came with Rust 1.66.
#[inline(always)]
pub fn hidden(value: u64) -> u64 {
    unsafe { std::ptr::read_volatile(&value) }
}

/// The thread's own processor time in nanoseconds, so that other work of the machine isn't counted.
fn processor_nanos() -> u64 {
    const CLOCK_THREAD_CPUTIME_ID: c_int = 3;
    let mut time = [0; 2];
    assert_eq!(unsafe { clock_gettime(CLOCK_THREAD_CPUTIME_ID, &mut time) }, 0);
    time[0] as u64 * 1_000_000_000 + time[1] as u64
}

/// Nanoseconds of a call, which is repeated for this many milliseconds.
pub fn nanos_of(call: &dyn Fn() -> u64, milliseconds: u64) -> f64 {
    let (start, mut calls) = (processor_nanos(), 0);
    loop {
        hidden(call());
        calls += 1;
        let time = processor_nanos() - start;
        if time >= milliseconds * 1_000_000 {
            return time as f64 / f64::from(calls);
        }
    }
}

/// How many pages are first touched while a call runs. The system makes each one then, and counts a minor fault.
pub fn page_faults(call: &dyn Fn() -> u64) -> i64 {
    let faults = || {
        let mut usage = [0; 18];
        assert_eq!(unsafe { getrusage(0, &mut usage) }, 0);
        // After two times of two numbers each, and four numbers of memory.
        usage[8]
    };
    let before = faults();
    hidden(call());
    faults() - before
}

/// How many bytes the pages have that are first touched while a call runs. A page that is freed and allocated once more
/// counts twice. Before the call, free pages are given back, and pages of 2 MB are switched off, so that each has 4,096
/// bytes.
pub fn touched_bytes(call: &dyn Fn() -> u64) -> i64 {
    const PR_SET_THP_DISABLE: c_int = 41;
    assert_eq!(unsafe { prctl(PR_SET_THP_DISABLE, 1, 0, 0, 0) }, 0);
    unsafe { malloc_trim(0) };
    page_faults(call) * 4096
}
