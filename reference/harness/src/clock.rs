//! The processor time of this thread, and medians. On a machine with other work a run is
//! interrupted now and then; that time is not counted.

#[repr(C)]
struct Timespec {
    seconds: i64,
    nanoseconds: i64,
}

extern "C" {
    fn clock_gettime(clock: i32, time: *mut Timespec) -> i32;
    fn getrusage(who: i32, usage: *mut [i64; 18]) -> i32;
}

/// CLOCK_THREAD_CPUTIME_ID of Linux.
const THREAD_TIME: i32 = 3;

/// Nanoseconds of processor time so far.
pub fn nanoseconds() -> u64 {
    let mut time = Timespec {
        seconds: 0,
        nanoseconds: 0,
    };
    // SAFETY: `time` is a timespec of 64-bit Linux, which the call fills.
    let status = unsafe { clock_gettime(THREAD_TIME, &mut time) };
    assert_eq!(status, 0, "the clock of a thread can be read");
    time.seconds as u64 * 1_000_000_000 + time.nanoseconds as u64
}

/// RUSAGE_CHILDREN of Linux.
const CHILDREN: i32 = -1;

/// Nanoseconds of processor time so far of the child processes that have ended.
pub fn children_nanoseconds() -> u64 {
    let mut usage = [0i64; 18];
    // SAFETY: a `struct rusage` of 64-bit Linux has 18 words, which the call fills.
    let status = unsafe { getrusage(CHILDREN, &mut usage) };
    assert_eq!(status, 0, "the children's time can be read");
    // User time and system time, each in seconds and microseconds.
    let microseconds = (usage[0] + usage[2]) * 1_000_000 + usage[1] + usage[3];
    microseconds as u64 * 1_000
}

pub fn median(times: &[f64]) -> f64 {
    let mut sorted = times.to_vec();
    sorted.sort_by(f64::total_cmp);
    sorted[sorted.len() / 2]
}

/// The median of the ratios in each repetition.
pub fn ratio(times: &[f64], others: &[f64]) -> f64 {
    let ratios: Vec<f64> = times.iter().zip(others).map(|(a, b)| a / b).collect();
    median(&ratios)
}
