//! Processor time of programs that were run and have ended: unlike the time on
//! the clock, it leaves out how long they waited for others.

/// What the C library of a 64-bit Linux fills in; a time is seconds and
/// microseconds.
#[repr(C)]
#[derive(Default)]
struct Usage {
    user: [i64; 2],
    system: [i64; 2],
    rest: [i64; 14],
}

const CHILDREN: i32 = -1;

extern "C" {
    fn getrusage(who: i32, usage: *mut Usage) -> i32;
}

/// Seconds of all programs that this one has run and waited for, so far.
pub fn of_children() -> f64 {
    let mut usage = Usage::default();
    // SAFETY: the pointer is to a structure of the function's own layout, lent
    // to nobody else for the call.
    let status = unsafe { getrusage(CHILDREN, &mut usage) };
    assert_eq!(status, 0, "the processor time of ended programs");
    let seconds = |[whole, parts]: [i64; 2]| whole as f64 + parts as f64 / 1e6;
    seconds(usage.user) + seconds(usage.system)
}
