//! The processor time of this program: the check runs in a thread of its own. The standard library has no clock for it; its C library does.

/// A C `struct timespec`, as x86-64 Linux has it.
#[repr(C)]
struct Timespec {
    seconds: i64,
    nanoseconds: i64,
}

/// CLOCK_PROCESS_CPUTIME_ID of Linux.
const PROCESS: i32 = 2;

extern "C" {
    fn clock_gettime(clock: i32, time: *mut Timespec) -> i32;
}

/// Seconds of processor time that this program has used.
#[allow(unsafe_code)]
pub fn seconds() -> f64 {
    let mut time = Timespec { seconds: 0, nanoseconds: 0 };
    // SAFETY: the pointer is good for one timespec, which is all that the call writes.
    let failed = unsafe { clock_gettime(PROCESS, &mut time) } != 0;
    assert!(!failed, "the system has no clock for a program's processor time");
    time.seconds as f64 + time.nanoseconds as f64 / 1e9
}
