//! The calls on a book as data: their lines in the vectors, and their answers.

use std::fmt;

use crate::book::{Book, Cents, Parts, Position};
use crate::refusal::Refusal;

/// The arguments of Open.
#[derive(Clone, Debug)]
pub struct Opening {
    pub first_day: u32,
    pub term: u32,
    pub annual: u64,
    pub cents: u64,
    pub holders: Vec<u32>,
    pub shares: Vec<u32>,
}

#[derive(Clone, Debug)]
pub enum Call {
    /// Not a call on the book at hand: a new empty one takes its place.
    Empty,
    Open(Opening),
    Advance {
        date: u32,
    },
    Transfer {
        cedent: u32,
        assignee: u32,
        parts: u64,
    },
    Settle {
        cents: u64,
    },
    Position {
        holder: u32,
    },
    PositionAt {
        place: u64,
    },
    Totals,
    Rate {
        date: u32,
        annual: u64,
    },
}

impl Call {
    /// What the call answers beyond its number.
    pub fn run(&self, book: &mut Book) -> Result<Vec<i128>, Refusal> {
        Ok(match *self {
            Call::Empty => {
                *book = Book::empty();
                Vec::new()
            }
            Call::Open(ref opening) => {
                book.open(
                    opening.first_day,
                    opening.term,
                    opening.annual,
                    Cents(opening.cents),
                    &opening.holders,
                    &opening.shares,
                )?;
                Vec::new()
            }
            Call::Advance { date } => vec![book.advance(date)?.into()],
            Call::Transfer {
                cedent,
                assignee,
                parts,
            } => {
                vec![book.transfer(cedent, assignee, Parts(parts))?.0.into()]
            }
            Call::Settle { cents } => {
                let taken = book.settle(Cents(cents))?;
                vec![taken.interest.0.into(), taken.principal.0.into()]
            }
            Call::Position { holder } => position_fields(book.position(holder)?),
            Call::PositionAt { place } => {
                let positions = book.positions()?;
                let count = positions.len() as u64;
                if place >= count {
                    return Err(Refusal::Holder);
                }
                let mut fields = vec![count.into()];
                fields.extend(position_fields(positions[place as usize]));
                fields
            }
            Call::Totals => {
                let totals = book.totals()?;
                vec![
                    totals.today.into(),
                    totals.outstanding.0.into(),
                    totals.due.0.into(),
                    totals.fraction.into(),
                    totals.principal_paid.0.into(),
                    totals.interest_paid.0.into(),
                ]
            }
            Call::Rate { date, annual } => {
                let change = book.rate(date, annual)?;
                vec![change.outstanding.into(), change.due.into()]
            }
        })
    }

    /// How many numbers an answer has beyond the first.
    fn fields(&self) -> usize {
        match self {
            Call::Empty | Call::Open(_) => 0,
            Call::Advance { .. } | Call::Transfer { .. } => 1,
            Call::Settle { .. } | Call::Rate { .. } => 2,
            Call::Position { .. } => 4,
            Call::PositionAt { .. } => 5,
            Call::Totals => 6,
        }
    }

    /// The answer's line: 0 and the fields, or a refusal's number and zeros.
    pub fn answer_line(&self, answer: &Result<Vec<i128>, Refusal>) -> String {
        let (number, fields) = match answer {
            Ok(fields) => (0, fields.clone()),
            Err(refusal) => (refusal.number(), vec![0; self.fields()]),
        };
        let mut line = number.to_string();
        for field in fields {
            line += &format!(" {field}");
        }
        line
    }

    pub fn only_reads(&self) -> bool {
        matches!(
            self,
            Call::Position { .. } | Call::PositionAt { .. } | Call::Totals
        )
    }
}

fn position_fields(position: Position) -> Vec<i128> {
    vec![
        position.holder.into(),
        position.share.0.into(),
        position.unit_days.0.into(),
        position.received.0.into(),
    ]
}

/// The call's line.
impl fmt::Display for Call {
    fn fmt(&self, line: &mut fmt::Formatter) -> fmt::Result {
        match self {
            Call::Empty => write!(line, "0"),
            Call::Open(opening) => {
                let Opening {
                    first_day,
                    term,
                    annual,
                    cents,
                    holders,
                    shares,
                } = opening;
                write!(line, "1 {first_day} {term} {annual} {cents}")?;
                for list in [holders, shares] {
                    write!(line, " {}", list.len())?;
                    for number in list {
                        write!(line, " {number}")?;
                    }
                }
                Ok(())
            }
            Call::Advance { date } => write!(line, "2 {date}"),
            Call::Transfer {
                cedent,
                assignee,
                parts,
            } => {
                write!(line, "3 {cedent} {assignee} {parts}")
            }
            Call::Settle { cents } => write!(line, "4 {cents}"),
            Call::Position { holder } => write!(line, "5 {holder}"),
            Call::PositionAt { place } => write!(line, "6 {place}"),
            Call::Totals => write!(line, "7"),
            Call::Rate { date, annual } => write!(line, "8 {date} {annual}"),
        }
    }
}

#[cfg(test)]
mod tests {
    use super::*;

    /// The paper's example 8, as lines.
    #[test]
    fn calls_and_answers_as_printed() {
        let calls = [
            Call::Empty,
            Call::Totals,
            Call::Open(Opening {
                first_day: 20140101,
                term: 30,
                annual: 2_000,
                cents: 100,
                holders: vec![1],
                shares: vec![1_000_000],
            }),
            Call::Advance { date: 20140111 },
            Call::Transfer {
                cedent: 1,
                assignee: 2,
                parts: 500_000,
            },
            Call::Advance { date: 20140131 },
            Call::Advance { date: 20140131 },
            Call::Settle { cents: 101 },
            Call::Settle { cents: 100 },
            Call::Position { holder: 1 },
            Call::Position { holder: 3 },
            Call::PositionAt { place: 1 },
            Call::PositionAt { place: 2 },
            Call::PositionAt { place: u64::MAX },
            Call::Totals,
            Call::Rate {
                date: 20140201,
                annual: 0,
            },
        ];
        let expected = [
            ("0", "0"),
            ("7", "1 0 0 0 0 0 0"),
            ("1 20140101 30 2000 100 1 1 1 1000000", "0"),
            ("2 20140111", "0 10"),
            ("3 1 2 500000", "0 500000"),
            ("2 20140131", "0 20"),
            ("2 20140131", "8 0"),
            ("4 101", "14 0 0"),
            ("4 100", "0 0 100"),
            ("5 1", "0 1 500000 0 67"),
            ("5 3", "10 0 0 0 0"),
            ("6 1", "0 2 2 500000 0 33"),
            ("6 2", "10 0 0 0 0 0"),
            ("6 18446744073709551615", "10 0 0 0 0 0"),
            ("7", "0 20140131 0 0 1627656000 100 0"),
            ("8 20140201 0", "8 0 0"),
        ];
        let mut book = Book::empty();
        for (call, (line, answer)) in calls.iter().zip(expected) {
            assert_eq!(call.to_string(), line);
            assert_eq!(call.answer_line(&call.run(&mut book)), answer, "{line}");
        }
    }
}
