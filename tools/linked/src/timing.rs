//! Two ways to do one thing, timed in turns.

use std::time::Duration;

/// What one of the two takes in a round, if it isn't longer by itself.
const BATCH: Duration = Duration::from_millis(1);

/// Rounds are made until they took so long, but no fewer than these.
const TIME: Duration = Duration::from_millis(600);
const FEWEST: usize = 11;

/// Nanoseconds of one run.
pub struct Times {
    /// The medians of the rounds.
    pub ours: f64,
    pub reference: f64,
    /// The least of them.
    pub our_least: f64,
    pub reference_least: f64,
}

/// In each round both run for about as long; who goes first alternates.
pub fn in_turns(mut ours: impl FnMut(), mut reference: impl FnMut()) -> Times {
    let our_runs = runs_in_a_batch(&mut ours);
    let reference_runs = runs_in_a_batch(&mut reference);
    let mut our_times = Vec::new();
    let mut reference_times = Vec::new();
    let start = thread_time();
    while our_times.len() < FEWEST || thread_time() - start < TIME {
        if our_times.len().is_multiple_of(2) {
            our_times.push(batch(&mut ours, our_runs));
            reference_times.push(batch(&mut reference, reference_runs));
        } else {
            reference_times.push(batch(&mut reference, reference_runs));
            our_times.push(batch(&mut ours, our_runs));
        }
    }
    Times {
        ours: median(&mut our_times),
        reference: median(&mut reference_times),
        our_least: our_times[0],
        reference_least: reference_times[0],
    }
}

/// At least one. The first run makes what is made when first asked for, and
/// isn't counted.
fn runs_in_a_batch(run: &mut impl FnMut()) -> u32 {
    run();
    let mut runs = 1;
    while batch(run, runs) * f64::from(runs) < BATCH.as_nanos() as f64 {
        runs *= 2;
    }
    runs
}

/// Nanoseconds of one run.
fn batch(run: &mut impl FnMut(), runs: u32) -> f64 {
    let start = thread_time();
    for _ in 0..runs {
        run();
    }
    (thread_time() - start).as_nanos() as f64 / f64::from(runs)
}

/// The processor time of this thread. On a machine that does other work it says
/// more than a clock, which counts the time given to others.
fn thread_time() -> Duration {
    let mut time = Timespec {
        seconds: 0,
        nanoseconds: 0,
    };
    let failed = unsafe { clock_gettime(CLOCK_THREAD_CPUTIME_ID, &mut time) };
    assert_eq!(failed, 0, "no clock of the thread");
    Duration::new(time.seconds as u64, time.nanoseconds as u32)
}

/// On Linux for x86-64, as the archive.
#[repr(C)]
struct Timespec {
    seconds: i64,
    nanoseconds: i64,
}

const CLOCK_THREAD_CPUTIME_ID: i32 = 3;

extern "C" {
    fn clock_gettime(clock: i32, time: *mut Timespec) -> i32;
}

/// It leaves them sorted.
fn median(numbers: &mut [f64]) -> f64 {
    numbers.sort_unstable_by(f64::total_cmp);
    numbers[numbers.len() / 2]
}

#[cfg(test)]
mod tests {
    use super::*;
    use std::thread::sleep;
    use std::time::Instant;

    #[test]
    fn the_middle_one() {
        let mut numbers = [3.0, 1.0, 2.0];
        assert_eq!(median(&mut numbers), 2.0);
        assert_eq!(numbers, [1.0, 2.0, 3.0]);
    }

    /// Work counts, sleep doesn't.
    #[test]
    fn time_of_the_thread() {
        let start = thread_time();
        while thread_time() - start < Duration::from_millis(20) {}
        let worked = thread_time();
        let clock = Instant::now();
        sleep(Duration::from_millis(50));
        assert!(thread_time() - worked < Duration::from_millis(20));
        assert!(clock.elapsed() >= Duration::from_millis(50));
    }

    /// Not inlined: two copies with other counts may be compiled in other ways.
    #[inline(never)]
    fn work(turns: u64) {
        for turn in 0..turns {
            std::hint::black_box(turn);
        }
    }

    /// On whichever side the greater work is.
    #[test]
    fn neither_side_is_favoured() {
        for (ours, reference, expected) in [
            (20_000, 10_000, 2.0),
            (10_000, 20_000, 0.5),
            (10_000, 10_000, 1.0),
        ] {
            let times = in_turns(|| work(ours), || work(reference));
            let error = times.ours / times.reference / expected;
            assert!((0.8..1.25).contains(&error), "{ours} {reference}: {error}");
        }
    }
}
