//! The paper's tally. It is told the opening, then each call and whether the
//! book accepted it, and reads nothing else; of the book's means it uses only
//! dates, daily rates and the split. For every day it keeps rate, shares and
//! settlement, and it works out everything anew from day 0 when asked.

use crate::apportionment::{apportion, PLACES};
use crate::calendar::Calendar;
use crate::calls::{Call, Opening};
use crate::rates::daily;

pub struct Tally {
    first_day: u32,
    recognised: u128,
    today: usize,
    /// In order of first appearance.
    holders: Vec<u32>,
    /// For every day, the last one included.
    daily_rates: Vec<u64>,
    /// For every holder and every day.
    shares: Vec<Vec<u64>>,
    /// For every day. A settlement of 0 cents is one too.
    settlements: Vec<Option<u64>>,
}

/// What the tally works out.
#[derive(Debug, PartialEq, Eq)]
pub struct Outcome {
    /// A date.
    pub today: u32,
    pub outstanding: u128,
    pub due: u128,
    pub principal_paid: u128,
    pub interest_paid: u128,
    /// The sum over elapsed days of outstanding times daily rate.
    pub accrued: u128,
    pub holders: Vec<HolderOutcome>,
}

#[derive(Debug, PartialEq, Eq)]
pub struct HolderOutcome {
    pub holder: u32,
    /// Today's.
    pub share: u64,
    /// Since the last settlement.
    pub unit_days: u64,
    pub receipts: u128,
}

impl Tally {
    /// From the arguments of an accepted Open.
    pub fn open(opening: &Opening) -> Self {
        let days = opening.term as usize + 1;
        let rate = daily(opening.annual).expect("an accepted rate");
        let shares = opening.shares.iter();
        Tally {
            first_day: opening.first_day,
            recognised: opening.cents.into(),
            today: 0,
            holders: opening.holders.clone(),
            daily_rates: vec![rate; days],
            shares: shares.map(|&share| vec![share.into(); days]).collect(),
            settlements: vec![None; days],
        }
    }

    pub fn hear(&mut self, call: &Call, accepted: bool) {
        if !accepted {
            return;
        }
        match *call {
            Call::Advance { date } => self.today = self.day_of(date),
            Call::Rate { date, annual } => {
                let from = self.day_of(date);
                self.daily_rates[from..].fill(daily(annual).expect("an accepted rate"));
            }
            Call::Transfer {
                cedent,
                assignee,
                parts,
            } => {
                let cedent = self.place_of(cedent);
                let assignee = self.place_of(assignee);
                for day in self.today..self.days() {
                    self.shares[cedent][day] -= parts;
                    self.shares[assignee][day] += parts;
                }
            }
            Call::Settle { cents } => self.settlements[self.today] = Some(cents),
            Call::Position { .. } | Call::PositionAt { .. } | Call::Totals => {}
            Call::Empty | Call::Open(_) => panic!("an open book does not open: {call}"),
        }
    }

    pub fn work_out(&self) -> Outcome {
        let mut accrued = 0;
        let mut interest_paid = 0;
        let mut principal_paid = 0;
        let mut receipts = vec![0; self.holders.len()];
        let mut previous = 0; // the previous settlement's day, or day 0
        for day in 0..=self.today {
            if let Some(cents) = self.settlements[day] {
                let due = whole_cents(accrued) - interest_paid;
                let interest = due.min(cents.into());
                interest_paid += interest;
                principal_paid += u128::from(cents) - interest;
                let portions = self.portions(cents, previous, day);
                for (sum, portion) in receipts.iter_mut().zip(portions) {
                    *sum += u128::from(portion);
                }
                previous = day;
            }
            if day < self.today {
                let outstanding = self.recognised - principal_paid;
                accrued += outstanding * u128::from(self.daily_rates[day]);
            }
        }

        let holders = self.holders.iter().zip(&self.shares).zip(receipts);
        Outcome {
            today: Calendar::gregorian()
                .plus_days(self.first_day, self.today as u32)
                .expect("a day up to the term's end"),
            outstanding: self.recognised - principal_paid,
            due: whole_cents(accrued) - interest_paid,
            principal_paid,
            interest_paid,
            accrued,
            holders: holders
                .map(|((&holder, shares), receipts)| HolderOutcome {
                    holder,
                    share: shares[self.today],
                    unit_days: shares[previous..self.today].iter().sum(),
                    receipts,
                })
                .collect(),
        }
    }

    /// The holders' portions of a settlement, by their shares from one day to
    /// the day before the other.
    fn portions(&self, cents: u64, from: usize, to: usize) -> [u64; PLACES] {
        let mut weights = [0; PLACES];
        for (weight, shares) in weights.iter_mut().zip(&self.shares) {
            *weight = shares[from..to].iter().sum();
        }
        apportion(cents, self.holders.len() as u64, &weights).expect("days held")
    }

    /// Days are counted from the first, day 0, to the term's end.
    fn days(&self) -> usize {
        self.settlements.len()
    }

    fn day_of(&self, date: u32) -> usize {
        let days = Calendar::gregorian().days_between(self.first_day, date);
        days.expect("an accepted date") as usize
    }

    /// The holder's place; one not yet present is added last, without a share.
    fn place_of(&mut self, holder: u32) -> usize {
        let place = self.holders.iter().position(|&present| present == holder);
        place.unwrap_or_else(|| {
            self.holders.push(holder);
            self.shares.push(vec![0; self.days()]);
            self.holders.len() - 1
        })
    }
}

fn whole_cents(accrued: u128) -> u128 {
    accrued / 10_000_000_000
}

#[cfg(test)]
mod tests {
    use super::*;

    fn opened(term: u32, cents: u64, shares: &[u32]) -> Tally {
        Tally::open(&Opening {
            first_day: 20140101,
            term,
            annual: 2_000,
            cents,
            holders: (1..=shares.len() as u32).collect(),
            shares: shares.to_vec(),
        })
    }

    fn receipts(tally: &Tally) -> Vec<u128> {
        let outcome = tally.work_out();
        outcome
            .holders
            .iter()
            .map(|holder| holder.receipts)
            .collect()
    }

    #[test]
    fn paper_example_5() {
        let mut tally = opened(5_479, 354_054_743_000, &[1_000_000]);
        tally.hear(&Call::Advance { date: 20140102 }, true);
        let outcome = tally.work_out();
        assert_eq!(outcome.due, 19_209_310);
        assert_eq!(outcome.accrued, 19_209_310 * 10_000_000_000 + 8_924_136_000);
    }

    #[test]
    fn paper_examples_6_and_7() {
        let shares = [350_100, 60_800, 441_600, 10_000, 137_500];
        let mut tally = opened(1, 1_000_000, &shares);
        tally.hear(&Call::Advance { date: 20140102 }, true);
        tally.hear(&Call::Settle { cents: 100 }, true);
        assert_eq!(receipts(&tally), [35, 6, 44, 1, 14]);

        let mut tally = opened(1, 1_000_000, &[500_000, 500_000]);
        tally.hear(&Call::Advance { date: 20140102 }, true);
        tally.hear(&Call::Settle { cents: 1 }, true);
        assert_eq!(receipts(&tally), [1, 0]);
    }

    #[test]
    fn paper_example_8() {
        let mut tally = opened(30, 100, &[1_000_000]);
        tally.hear(&Call::Advance { date: 20140111 }, true);
        tally.hear(
            &Call::Transfer {
                cedent: 1,
                assignee: 2,
                parts: 500_000,
            },
            true,
        );
        tally.hear(&Call::Advance { date: 20140131 }, true);
        tally.hear(&Call::Settle { cents: 100 }, true);
        let holder = |holder, receipts| HolderOutcome {
            holder,
            share: 500_000,
            unit_days: 0,
            receipts,
        };
        let outcome = Outcome {
            today: 20140131,
            outstanding: 0,
            due: 0,
            principal_paid: 100,
            interest_paid: 0,
            accrued: 1_627_656_000,
            holders: vec![holder(1, 67), holder(2, 33)],
        };
        assert_eq!(tally.work_out(), outcome);
    }

    #[test]
    fn paper_example_11() {
        let mut tally = opened(1, 1_000_000_000, &[1_000_000]);
        tally.hear(&Call::Advance { date: 20140102 }, true);
        tally.hear(&Call::Settle { cents: 100_000 }, true);
        let before = tally.work_out();
        assert_eq!(before.interest_paid, 54_255);
        assert_eq!(before.principal_paid, 45_745);
        tally.hear(
            &Call::Rate {
                date: 20140101,
                annual: 0,
            },
            true,
        );
        let after = tally.work_out();
        assert_eq!(before.outstanding - after.outstanding, 54_255);
        assert_eq!(before.due, after.due);
    }

    #[test]
    fn a_refused_call_changes_nothing() {
        let mut tally = opened(30, 100, &[1_000_000]);
        let before = tally.work_out();
        tally.hear(&Call::Advance { date: 20140102 }, false);
        tally.hear(&Call::Settle { cents: 5 }, false);
        tally.hear(
            &Call::Transfer {
                cedent: 1,
                assignee: 2,
                parts: 1,
            },
            false,
        );
        tally.hear(
            &Call::Rate {
                date: 20140101,
                annual: 0,
            },
            false,
        );
        tally.hear(&Call::Empty, false);
        assert_eq!(tally.work_out(), before);
    }

    #[test]
    fn a_settlement_of_nothing_is_one() {
        let mut tally = opened(30, 1_000, &[1_000_000]);
        tally.hear(&Call::Advance { date: 20140102 }, true);
        tally.hear(&Call::Settle { cents: 0 }, true);
        tally.hear(
            &Call::Transfer {
                cedent: 1,
                assignee: 2,
                parts: 1_000_000,
            },
            true,
        );
        tally.hear(&Call::Advance { date: 20140103 }, true);
        tally.hear(&Call::Settle { cents: 10 }, true);
        assert_eq!(receipts(&tally), [0, 10]);
    }
}
