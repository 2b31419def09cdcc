//! The clock of all times: the processor time of this thread. A machine that does other work too takes the processor away for a while;
//! that while is not counted.

/// As Linux has it on 64-bit machines.
#[repr(C)]
struct TimeSpec {
    seconds: i64,
    nanoseconds: i64,
}

const CLOCK_THREAD_CPUTIME_ID: i32 = 3;

extern "C" {
    fn clock_gettime(clock: i32, time: *mut TimeSpec) -> i32;
}

fn now() -> f64 {
    let mut time = TimeSpec { seconds: 0, nanoseconds: 0 };
    // SAFETY: the pointer is valid for the one structure that is written.
    let status = unsafe { clock_gettime(CLOCK_THREAD_CPUTIME_ID, &mut time) };
    assert_eq!(status, 0, "the system tells a thread's processor time");
    time.seconds as f64 * 1e9 + time.nanoseconds as f64
}

/// What two looks at the clock cost by themselves: some hundred nanoseconds, which tells in a run of fifty calls.
fn own_cost() -> f64 {
    thread_local!(static COST: f64 = measured_cost());
    COST.with(|cost| *cost)
}

fn measured_cost() -> f64 {
    const LOOKS: usize = 1001;
    let between_two_looks = |_| {
        let first = now();
        now() - first
    };
    let mut costs: Vec<f64> = (0..LOOKS).map(between_two_looks).collect();
    costs.sort_by(f64::total_cmp);
    costs[LOOKS / 2]
}

/// Nanoseconds of a run, and its answer.
pub fn timed<T>(run: impl FnOnce() -> T) -> (f64, T) {
    let cost = own_cost();
    let start = now();
    let answer = run();
    let time = now() - start - cost;
    (time.max(0.0), answer)
}

#[cfg(test)]
mod tests {
    use super::*;
    use std::sync::atomic::{AtomicU64, Ordering};

    #[test]
    fn work_takes_time_and_sleep_takes_none() {
        // A sum that nobody asks for would be left out by the compiler, or made outside of what is timed.
        let count = AtomicU64::new(0);
        let (working, _) = timed(|| {
            for _ in 0..1_000_000 {
                count.fetch_add(1, Ordering::SeqCst);
            }
        });
        let (sleeping, ()) = timed(|| std::thread::sleep(std::time::Duration::from_millis(20)));
        assert!(working > 1e5 && sleeping < 1e6, "{working} and {sleeping}");
    }
}
