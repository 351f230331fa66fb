//! The calls from several threads at once, compared with those of one thread.

use std::sync::Barrier;
use std::thread;

use crate::call::{Answer, Call};
use crate::calls::Report;
use crate::random_calls::Author;

const THREADS: usize = 8;

/// Calls that are kept at a time.
const CHUNK: u64 = 1_000;

/// Each thread makes all calls of a chunk, and begins with another one; all lend
/// the same bytes of files and lines, and buffers and slots are each thread's own.
/// A call passes if every thread has the one thread's answer.
pub fn threads(count: u64, seed: u64) -> Report {
    let author = Author::new();
    let mut report = Report::default();
    let mut first = 0;
    while first < count {
        let numbers = first..count.min(first + CHUNK);
        let calls: Vec<Call> = numbers.map(|number| author.call(seed, number)).collect();
        let alone: Vec<Answer> = calls.iter().map(Call::ours).collect();
        let differing = at_once(&calls, &alone);
        for (place, call) in calls.iter().enumerate() {
            report.count(call.name(), alone[place].number);
            let number = first + place as u64;
            report.judge(!differing[place], || {
                format!("call {number} in a thread among others: {call:?}")
            });
        }
        first += CHUNK;
    }
    report
}

/// Which calls had another answer than alone, in some thread.
fn at_once(calls: &[Call], alone: &[Answer]) -> Vec<bool> {
    let start = Barrier::new(THREADS);
    let one = |thread: usize| {
        let mut differing = vec![false; calls.len()];
        let first = thread * calls.len() / THREADS;
        start.wait();
        for place in (first..calls.len()).chain(0..first) {
            differing[place] = calls[place].ours() != alone[place];
        }
        differing
    };
    thread::scope(|scope| {
        let threads: Vec<_> = (0..THREADS)
            .map(|thread| {
                let one = &one;
                scope.spawn(move || one(thread))
            })
            .collect();
        let mut any = vec![false; calls.len()];
        for thread in threads {
            let differing = thread.join().expect("no panic");
            for (any, differs) in any.iter_mut().zip(differing) {
                *any |= differs;
            }
        }
        any
    })
}

#[cfg(test)]
mod tests {
    use super::*;

    #[test]
    fn every_call_counts() {
        assert_eq!(threads(2_500, 3).verdict(), "2500 passed, 0 failed");
    }

    #[test]
    fn a_differing_answer_is_found() {
        let author = Author::new();
        let calls: Vec<Call> = (0..20).map(|number| author.call(9, number)).collect();
        let mut alone: Vec<Answer> = calls.iter().map(Call::ours).collect();
        alone[7].number += 1;
        let expected: Vec<bool> = (0..20).map(|place| place == 7).collect();
        assert_eq!(at_once(&calls, &alone), expected);
    }
}
