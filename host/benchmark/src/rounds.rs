//! Rounds that alternate between two works, so that what the machine does meanwhile meets both alike.

use std::time::{Duration, Instant};

/// What a round is timed by: the processor's time of this thread, which other work on the machine does not enter, or
/// the clock on the wall, for other processes.
#[derive(Clone, Copy)]
pub enum Clock {
    Processor,
    Wall,
}

#[repr(C)]
struct TimeSpec {
    seconds: i64,
    nanoseconds: i64,
}

extern "C" {
    fn clock_gettime(clock: i32, time: *mut TimeSpec) -> i32;
}

/// CLOCK_THREAD_CPUTIME_ID of Linux.
const THREAD_TIME: i32 = 3;

fn processor_time() -> Duration {
    let mut time = TimeSpec { seconds: 0, nanoseconds: 0 };
    // SAFETY: the place is that of a timespec as 64-bit Linux has it, and the call writes nothing else.
    let status = unsafe { clock_gettime(THREAD_TIME, &mut time) };
    assert_eq!(status, 0, "the system has no clock for this thread");
    Duration::new(time.seconds as u64, time.nanoseconds as u32)
}

/// The value, and the compiler does not know that it is that one.
pub fn opaque<T: Copy>(value: T) -> T {
    // SAFETY: the place is that of a live value of this type, and a copy may be made of it.
    unsafe { std::ptr::read_volatile(&value) }
}

fn timed(clock: Clock, work: &mut impl FnMut() -> usize) -> Duration {
    match clock {
        Clock::Processor => {
            let begun = processor_time();
            opaque(work());
            processor_time() - begun
        }
        Clock::Wall => {
            let begun = Instant::now();
            opaque(work());
            begun.elapsed()
        }
    }
}

/// The times of both in each round; the first to run changes from round to round.
pub fn alternate(
    clock: Clock,
    rounds: usize,
    mut first: impl FnMut() -> usize,
    mut second: impl FnMut() -> usize,
) -> Vec<(Duration, Duration)> {
    let mut times = Vec::with_capacity(rounds);
    for round in 0..rounds {
        if round % 2 == 0 {
            let a = timed(clock, &mut first);
            times.push((a, timed(clock, &mut second)));
        } else {
            let b = timed(clock, &mut second);
            times.push((timed(clock, &mut first), b));
        }
    }
    times
}

/// Median, least and greatest.
fn spread(mut values: Vec<f64>) -> String {
    values.sort_by(f64::total_cmp);
    format!("{:8.2} ({:.2} to {:.2})", values[values.len() / 2], values[0], values[values.len() - 1])
}

/// Prints the time for one of `parts` by each, in nanoseconds, and the ratio of the rounds.
pub fn compare(name: &str, parts: usize, times: &[(Duration, Duration)]) {
    let each = |time: &Duration| time.as_nanos() as f64 / parts as f64;
    let first = spread(times.iter().map(|t| each(&t.0)).collect());
    let second = spread(times.iter().map(|t| each(&t.1)).collect());
    let ratio = spread(times.iter().map(|t| each(&t.0) / each(&t.1)).collect());
    println!("{:26} {:32} {:32} {}", name, first, second, ratio);
}
