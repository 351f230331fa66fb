//! Runs the book and the tally on random lists of calls, and checks after each
//! call every sentence of the request's demand 3.

use std::collections::BTreeMap;

use crate::book::{Book, WHOLE};
use crate::calls::Call;
use crate::lists;
use crate::random::Random;
use crate::refusal::Refusal;
use crate::tally::{Outcome, Tally};

#[derive(Default)]
pub struct Report {
    pub passed: u64,
    pub failed: u64,
    /// How often each kind of call gave each number.
    pub answers: BTreeMap<(&'static str, u32), u64>,
    /// What went wrong, a text for each list that failed.
    pub faults: Vec<String>,
}

pub fn agree(lists: u64, seed: u64) -> Report {
    let mut report = Report::default();
    for number in 0..lists {
        let calls = lists::any(&mut Random::seeded(seed, number));
        match check(&calls, &mut report.answers) {
            Ok(()) => report.passed += 1,
            Err((at, fault)) => {
                report.failed += 1;
                let calls: Vec<String> = calls[..=at].iter().map(Call::to_string).collect();
                let calls = calls.join("\n");
                report
                    .faults
                    .push(format!("list {number}: {fault}\n{calls}"));
            }
        }
    }
    report
}

/// On a fault the place of the call after which it shows.
fn check(
    calls: &[Call],
    answers: &mut BTreeMap<(&'static str, u32), u64>,
) -> Result<(), (usize, &'static str)> {
    let mut book = Book::empty();
    let mut life: Option<Life> = None;
    for (at, call) in calls.iter().enumerate() {
        let before = book.clone();
        let answer = call.run(&mut book);
        let number = answer
            .as_ref()
            .map_or_else(|refusal| refusal.number(), |_| 0);
        *answers.entry((kind(call), number)).or_default() += 1;

        if (answer.is_err() || call.only_reads()) && book != before {
            return Err((at, "the book is not the one before"));
        }
        match &mut life {
            None => life = begin(call, &answer).map_err(|fault| (at, fault))?,
            Some(life) => life.hear(call, answer.is_ok()),
        }
        if let Some(life) = &life {
            life.compare(&book).map_err(|fault| (at, fault))?;
        }
    }
    Ok(())
}

/// An empty book refuses everything but a good Open, with which a life begins.
fn begin<T>(call: &Call, answer: &Result<T, Refusal>) -> Result<Option<Life>, &'static str> {
    match (call, answer) {
        (Call::Open(opening), Ok(_)) => Ok(Some(Life {
            tally: Tally::open(opening),
            recognised: opening.cents.into(),
            settled: 0,
        })),
        (Call::Open(_), Err(_)) | (_, Err(Refusal::Unopened)) => Ok(None),
        _ => Err("an empty book is not open"),
    }
}

/// What is known of an open book from the calls alone.
struct Life {
    tally: Tally,
    recognised: u128,
    /// The cents of all accepted settlements.
    settled: u128,
}

impl Life {
    fn hear(&mut self, call: &Call, accepted: bool) {
        self.tally.hear(call, accepted);
        if let (Call::Settle { cents }, true) = (call, accepted) {
            self.settled += u128::from(*cents);
        }
    }

    fn compare(&self, book: &Book) -> Result<(), &'static str> {
        let (Ok(totals), Ok(positions)) = (book.totals(), book.positions()) else {
            return Err("the book is open");
        };
        let tally: Outcome = self.tally.work_out();
        let outstanding = u128::from(totals.outstanding.0);
        let due = u128::from(totals.due.0);
        let fraction = u128::from(totals.fraction);
        let principal_paid = u128::from(totals.principal_paid.0);
        let interest_paid = u128::from(totals.interest_paid.0);
        let holders = || positions.iter().zip(&tally.holders);

        let sentences = [
            (
                "shares total 1,000,000",
                positions
                    .iter()
                    .map(|position| position.share.0)
                    .sum::<u64>()
                    == WHOLE.0,
            ),
            (
                "the holders are the tally's, in its order",
                positions.len() == tally.holders.len()
                    && holders().all(|(position, holder)| position.holder == holder.holder),
            ),
            (
                "each holder's share is today's in the tally",
                holders().all(|(position, holder)| position.share.0 == holder.share),
            ),
            (
                "outstanding plus principal paid is the recognised amount",
                outstanding + principal_paid == self.recognised,
            ),
            (
                "interest paid, due and the fraction are the elapsed days' interest",
                10_000_000_000 * (interest_paid + due) + fraction == tally.accrued,
            ),
            ("the fraction is below a cent", fraction < 10_000_000_000),
            (
                "receipts total the cents of all accepted settlements",
                positions
                    .iter()
                    .map(|position| u128::from(position.received.0))
                    .sum::<u128>()
                    == self.settled,
            ),
            (
                "each holder has the sum of its portions",
                holders()
                    .all(|(position, holder)| u128::from(position.received.0) == holder.receipts),
            ),
            (
                "each holder has its unit-days since the last settlement",
                holders().all(|(position, holder)| position.unit_days.0 == holder.unit_days),
            ),
            ("today is the tally's", totals.today == tally.today),
            (
                "outstanding is the tally's",
                outstanding == tally.outstanding,
            ),
            ("interest due is the tally's", due == tally.due),
            (
                "principal paid is the tally's",
                principal_paid == tally.principal_paid,
            ),
            (
                "interest paid is the tally's",
                interest_paid == tally.interest_paid,
            ),
        ];
        match sentences.iter().find(|(_, holds)| !holds) {
            Some((sentence, _)) => Err(sentence),
            None => Ok(()),
        }
    }
}

fn kind(call: &Call) -> &'static str {
    match call {
        Call::Empty => "Empty",
        Call::Open(_) => "Open",
        Call::Advance { .. } => "Advance",
        Call::Rate { .. } => "Rate",
        Call::Transfer { .. } => "Transfer",
        Call::Settle { .. } => "Settle",
        Call::Position { .. } | Call::PositionAt { .. } | Call::Totals => "Reader",
    }
}

impl Report {
    /// A line for each kind of call, `NUMBER×TIMES` for each answer.
    pub fn coverage(&self) -> Vec<String> {
        let mut lines: Vec<String> = Vec::new();
        let mut last = "";
        for (&(kind, number), times) in &self.answers {
            if kind != last {
                lines.push(format!("{kind}:"));
                last = kind;
            }
            if let Some(line) = lines.last_mut() {
                *line += &format!(" {number}×{times}");
            }
        }
        lines
    }

    pub fn verdict(&self) -> String {
        format!("{} passed, {} failed", self.passed, self.failed)
    }
}

#[cfg(test)]
mod tests {
    use super::*;
    use crate::call_cases::call_cases;
    use crate::calls::Opening;

    #[test]
    fn book_and_tally_agree() {
        let report = agree(60, 1);
        assert_eq!(report.faults, Vec::<String>::new());
        assert_eq!(report.verdict(), "60 passed, 0 failed");
    }

    #[test]
    fn they_agree_on_the_vectors() {
        let calls = call_cases();
        let lives = calls.split(|call| matches!(call, Call::Empty));
        for life in lives {
            assert_eq!(check(life, &mut BTreeMap::new()), Ok(()));
        }
    }

    #[test]
    fn a_wrong_book_is_noticed() {
        let opening = Opening {
            first_day: 20140101,
            term: 30,
            annual: 2_000,
            cents: 1_000_000,
            holders: vec![1, 2],
            shares: vec![400_000, 600_000],
        };
        let mut book = Book::empty();
        let call = Call::Open(opening);
        let mut life = begin(&call, &call.run(&mut book)).unwrap().unwrap();
        assert_eq!(life.compare(&book), Ok(()));

        // A call that the book made and the tally takes for refused.
        let advance = Call::Advance { date: 20140102 };
        advance.run(&mut book).unwrap();
        assert!(life.compare(&book).is_err());
        life.hear(&advance, true);
        assert_eq!(life.compare(&book), Ok(()));

        // One that the book refused and the tally takes for accepted.
        life.hear(&Call::Settle { cents: 1 }, true);
        assert!(life.compare(&book).is_err());
    }
}
