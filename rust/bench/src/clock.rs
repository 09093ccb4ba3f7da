//! Times of calls: medians over rounds in which the contestants take turns, so that a busy machine hurts all alike.

/// Rounds, odd for the median.
pub const ROUNDS: usize = 15;

/// For how many nanoseconds one contestant is timed in one round, at least.
const SAMPLE: u64 = 500_000;

/// `struct timespec` of a Linux of 64 bits.
#[repr(C)]
struct Time {
    seconds: i64,
    nanoseconds: i64,
}

/// Linux's number of the clock that counts the processor's time of a thread.
const CLOCK_THREAD_CPUTIME_ID: i32 = 3;

extern "C" {
    fn clock_gettime(clock: i32, time: *mut Time) -> i32;
}

/// The processor's time that this thread has used. Another program that takes the processor away does not show in it.
fn thread_nanoseconds() -> u64 {
    let mut time = Time { seconds: 0, nanoseconds: 0 };
    // The clock writes one `Time`, which lives until the call is back.
    let status = unsafe { clock_gettime(CLOCK_THREAD_CPUTIME_ID, &mut time) };
    assert_eq!(status, 0, "this system has no clock for a thread's processor time");
    time.seconds as u64 * 1_000_000_000 + time.nanoseconds as u64
}

/// The processor's time, in nanoseconds, that something takes.
pub fn time_of(work: impl FnOnce()) -> u64 {
    let begin = thread_nanoseconds();
    work();
    thread_nanoseconds() - begin
}

/// Makes so many calls and answers how many nanoseconds they took.
pub type Run<'a> = Box<dyn Fn(usize) -> u64 + 'a>;

/// How many calls take a sample's time.
fn calls_of_sample(run: &Run) -> usize {
    let mut calls = 1;
    while run(calls) < SAMPLE {
        calls *= 2;
    }
    calls
}

/// The one in the middle.
pub fn median(mut times: Vec<f64>) -> f64 {
    times.sort_by(f64::total_cmp);
    times[times.len() / 2]
}

/// Nanoseconds of one call of each contestant: the medians of all rounds.
pub fn medians(runs: &[Run]) -> Vec<f64> {
    rounds(runs).into_iter().map(median).collect()
}

/// Nanoseconds of one call of each contestant, round by round.
pub fn rounds(runs: &[Run]) -> Vec<Vec<f64>> {
    let calls: Vec<usize> = runs.iter().map(calls_of_sample).collect();
    let mut times = vec![Vec::new(); runs.len()];
    for _ in 0..ROUNDS {
        for ((run, &calls), times) in runs.iter().zip(&calls).zip(&mut times) {
            times.push(run(calls) as f64 / calls as f64);
        }
    }
    times
}
