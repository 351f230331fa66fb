//! Random calls of the exported functions, compared with the reference.

use std::collections::BTreeMap;

use crate::call::{Answer, Call};
use crate::random_calls::Author;

/// As many faults as are told.
const TOLD: usize = 10;

#[derive(Default)]
pub struct Report {
    pub passed: u64,
    pub failed: u64,
    /// For each function how often which number was expected.
    numbers: BTreeMap<&'static str, BTreeMap<u32, u64>>,
    pub faults: Vec<String>,
}

pub fn calls(count: u64, seed: u64) -> Report {
    compared(count, seed, Call::ours)
}

/// Calls that are answered in some way.
fn compared(count: u64, seed: u64, answer: impl Fn(&Call) -> Answer) -> Report {
    let author = Author::new();
    let mut report = Report::default();
    for number in 0..count {
        let call = author.call(seed, number);
        let expected = call.expected();
        let answered = answer(&call);
        report.count(call.name(), expected.number);
        report.judge(answered == expected, || {
            format!("call {number}: {call:?}\nexpected {expected:?}\nanswered {answered:?}")
        });
    }
    report
}

impl Report {
    pub fn count(&mut self, name: &'static str, number: u32) {
        let numbers = self.numbers.entry(name).or_default();
        *numbers.entry(number).or_default() += 1;
    }

    pub fn judge(&mut self, passed: bool, fault: impl FnOnce() -> String) {
        if passed {
            self.passed += 1;
            return;
        }
        self.failed += 1;
        if self.faults.len() < TOLD {
            self.faults.push(fault());
        }
    }

    /// For each function the calls, and `NUMBER×TIMES` for the numbers expected.
    pub fn coverage(&self) -> Vec<String> {
        let functions = self.numbers.iter();
        functions
            .map(|(name, numbers)| {
                let calls: u64 = numbers.values().sum();
                let each: Vec<String> = numbers
                    .iter()
                    .map(|(number, times)| format!("{number}×{times}"))
                    .collect();
                format!("{name}: {calls} calls: {}", each.join(" "))
            })
            .collect()
    }

    pub fn verdict(&self) -> String {
        format!("{} passed, {} failed", self.passed, self.failed)
    }
}

#[cfg(test)]
mod tests {
    use super::*;
    use crate::call::Room;
    use std::cell::Cell;

    #[test]
    fn as_printed() {
        let mut report = Report::default();
        for (name, number) in [("b", 0), ("a", 21), ("a", 3), ("a", 21)] {
            report.count(name, number);
        }
        assert_eq!(
            report.coverage(),
            ["a: 3 calls: 3×1 21×2", "b: 1 calls: 0×1"]
        );
        report.judge(true, || unreachable!());
        for _ in 0..12 {
            report.judge(false, || "fault".to_string());
        }
        assert_eq!(report.verdict(), "1 passed, 12 failed");
        assert_eq!(report.faults.len(), 10);
    }

    #[test]
    fn all_functions_and_numbers() {
        let report = calls(4_000, 1);
        assert_eq!(report.verdict(), "4000 passed, 0 failed");
        assert_eq!(report.numbers.len(), 6);
        for name in [
            "taborumbra_read_line",
            "taborumbra_write_line",
            "taborumbra_statement",
        ] {
            let numbers: Vec<u32> = report.numbers[name].keys().copied().collect();
            assert_eq!(numbers, [0, 21], "{name}");
        }
        for number in [0, 1, 20, 21, 22] {
            assert!(report.numbers["taborumbra_check"].contains_key(&number));
        }
    }

    /// The calls whose answer was changed fail, and no others. `change` answers
    /// whether there was something to change.
    fn changed_ones_fail(change: impl Fn(&Call, &mut Answer) -> bool) {
        let changed = Cell::new(0);
        let report = compared(500, 5, |call| {
            let mut answer = call.ours();
            changed.set(changed.get() + u64::from(change(call, &mut answer)));
            answer
        });
        assert!(changed.get() > 0);
        assert_eq!(report.failed, changed.get());
        assert_eq!(report.passed, 500 - changed.get());
    }

    fn room(call: &Call) -> Option<&Room> {
        match call {
            Call::Statement { room, .. } | Call::WriteLine { room, .. } => Some(room),
            _ => None,
        }
    }

    fn flip(answer: &mut Answer, place: usize) -> bool {
        answer.buffer[place] ^= 1;
        true
    }

    #[test]
    fn another_number_fails() {
        changed_ones_fail(|_, answer| {
            answer.number += 1;
            true
        });
    }

    #[test]
    fn another_slot_fails() {
        for place in 0..5 {
            changed_ones_fail(|_, answer| match answer.slots.get_mut(place) {
                Some(slot) => {
                    *slot += 1;
                    true
                }
                None => false,
            });
        }
    }

    #[test]
    fn another_byte_of_the_buffer_fails() {
        changed_ones_fail(|call, answer| match room(call) {
            Some(room) if room.start < room.end => flip(answer, room.start),
            _ => false,
        });
        changed_ones_fail(|call, answer| match room(call) {
            Some(room) if room.start < room.end => flip(answer, room.end - 1),
            _ => false,
        });
    }

    #[test]
    fn another_byte_beside_the_buffer_fails() {
        changed_ones_fail(|call, answer| match room(call) {
            Some(room) => flip(answer, room.start - 1),
            None => false,
        });
        changed_ones_fail(|call, answer| match room(call) {
            Some(room) => flip(answer, room.end),
            None => false,
        });
    }

    #[test]
    fn another_byte_elsewhere_fails() {
        changed_ones_fail(|_, answer| {
            answer.rest_kept = false;
            true
        });
    }
}
