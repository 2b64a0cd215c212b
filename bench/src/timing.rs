//! Interleaved rounds and their medians.

use std::ffi::{c_int, c_long};

/// Rounds of each measurement.
pub const ROUNDS: usize = 31;

/// The processor time of this thread, which other programs' work does not enter (Linux).
const CLOCK_THREAD_CPUTIME_ID: c_int = 3;

#[repr(C)]
struct Timespec {
    seconds: i64,
    nanoseconds: c_long,
}

unsafe extern "C" {
    fn clock_gettime(clock: c_int, time: *mut Timespec) -> c_int;
}

fn now() -> f64 {
    let mut time = Timespec { seconds: 0, nanoseconds: 0 };
    // SAFETY: C's library fills the struct, whose layout on Linux of 64 bits is this one.
    let status = unsafe { clock_gettime(CLOCK_THREAD_CPUTIME_ID, &mut time) };
    assert_eq!(status, 0);
    time.seconds as f64 * 1e9 + time.nanoseconds as f64
}

/// Nanoseconds that some work takes, and its result.
pub fn timed<T>(work: impl FnOnce() -> T) -> (f64, T) {
    let start = now();
    let result = work();
    (now() - start, result)
}

pub fn median(values: &mut [f64]) -> f64 {
    values.sort_by(f64::total_cmp);
    values[values.len() / 2]
}

/// The parties' medians over interleaved rounds, each round starting with another party. Each party answers its nanoseconds.
pub fn interleaved<const N: usize>(parties: &mut [&mut dyn FnMut() -> f64; N]) -> [f64; N] {
    let mut times = [const { Vec::new() }; N];
    for round in 0..ROUNDS {
        for turn in 0..N {
            let party = (round + turn) % N;
            times[party].push(parties[party]());
        }
    }
    std::array::from_fn(|party| median(&mut times[party]))
}
