//! The rows of the bench: what both sides do in each, and the word that names it.

use std::cell::RefCell;
use std::hint::black_box;
use std::rc::Rc;

use reference::book::Book;
use reference::file::load;
use reference::statement;

use crate::exported::{self, STATEMENT_BYTES};
use crate::files::{self, Case};
use crate::small_calls::{self, Inputs};

/// Over the files of a case, or over the prepared inputs of a small call.
#[derive(Clone, Copy, Debug, PartialEq, Eq)]
pub enum Work {
    Statements(Case),
    Checks(Case),
    DailyRates,
    PlusDays,
    WriteLines,
    ReadLines,
}

pub struct Table {
    pub heading: String,
    pub rows: Vec<Work>,
}

/// All rows that the bench prints, by their tables.
pub fn tables() -> Vec<Table> {
    use Case::*;
    let table = |heading: &str, rows: &[Work]| Table {
        heading: heading.to_string(),
        rows: rows.to_vec(),
    };
    let statements = |heading: &str, cases: &[Case]| Table {
        heading: heading.to_string(),
        rows: cases.iter().copied().map(Work::Statements).collect(),
    };
    let (days, settlements) = (files::RATE_DAYS, files::SETTLEMENTS);
    vec![
        statements(
            "Statements",
            &[
                Longest,
                Rates,
                Transfers,
                Damaged,
                DamagedShort,
                DamagedLong,
                Cents(127),
                Cents(64),
            ],
        ),
        table(
            "Checks (taborumbra_check against the reference's load on an empty book)",
            &[Longest, Rates, Transfers, Damaged, Cents(127), Cents(64)].map(Work::Checks),
        ),
        table(
            &format!(
                "Small calls, each over {} prepared inputs, at most one in eight of them refused",
                small_calls::COUNT
            ),
            &[
                Work::DailyRates,
                Work::PlusDays,
                Work::WriteLines,
                Work::ReadLines,
            ],
        ),
        statements(
            &format!(
                "Growth by lines: {} holders, then transfers",
                files::HOLDERS
            ),
            &[100, 300, 500, 1_000, 1_500].map(TransferLines),
        ),
        statements(
            &format!("Growth by rate orders, behind {settlements} settlements over {days} days *"),
            &[0, 1, 10, 25, 50, 100].map(RateOrders),
        ),
        statements(
            "Growth by days: 65 settlements, each so many days after the one before *",
            &[1, 7, 30, 60, 92].map(Days),
        ),
    ]
}

impl Work {
    /// Of every row, and of document 01's example.
    pub fn of_word(word: &str) -> Option<Self> {
        let rows = tables().into_iter().flat_map(|table| table.rows);
        let mut known = rows.chain([Work::Statements(Case::Paper)]);
        known.find(|work| work.word() == word)
    }

    pub fn word(self) -> String {
        match self {
            Work::Statements(case) => case.word(),
            Work::Checks(case) => format!("check-{}", case.word()),
            Work::DailyRates => "daily_rate".to_string(),
            Work::PlusDays => "plus_days".to_string(),
            Work::WriteLines => "write_line".to_string(),
            Work::ReadLines => "read_line".to_string(),
        }
    }

    /// What stands before its row, given its number of inputs.
    pub fn name(self, count: usize) -> String {
        match self {
            Work::Statements(case) | Work::Checks(case) => case.name(count),
            _ => self.word(),
        }
    }

    /// The inputs made, both ways are ready to run.
    pub fn ways(self) -> Ways {
        match self {
            Work::Statements(case) => statements(case.files()),
            Work::Checks(case) => over_all(
                case.files(),
                |file| our_check(file),
                |file| reference_check(file),
            ),
            Work::DailyRates => over_all(
                Inputs::prepared().annuals,
                small_calls::our_rate,
                small_calls::reference_rate,
            ),
            Work::PlusDays => over_all(
                Inputs::prepared().sums,
                small_calls::our_sum,
                small_calls::reference_sum,
            ),
            Work::WriteLines => over_all(
                Inputs::prepared().fields,
                small_calls::our_written,
                small_calls::reference_written,
            ),
            Work::ReadLines => over_all(
                Inputs::prepared().lines,
                |line| small_calls::our_read(line),
                |line| small_calls::reference_read(line),
            ),
        }
    }
}

/// Both ways to do a row's work, each over all of its inputs.
pub struct Ways {
    /// The inputs.
    pub count: usize,
    pub ours: Box<dyn FnMut()>,
    pub reference: Box<dyn FnMut()>,
    /// Whether both give the same for each of them.
    pub agree: Box<dyn Fn() -> bool>,
}

fn over_all<Input: 'static, Answer: PartialEq>(
    inputs: Vec<Input>,
    ours: impl Fn(&Input) -> Answer + Copy + 'static,
    reference: impl Fn(&Input) -> Answer + Copy + 'static,
) -> Ways {
    let inputs = Rc::new(inputs);
    let (for_ours, for_reference) = (inputs.clone(), inputs.clone());
    Ways {
        count: inputs.len(),
        ours: Box::new(move || {
            for input in for_ours.iter() {
                black_box(ours(black_box(input)));
            }
        }),
        reference: Box::new(move || {
            for input in for_reference.iter() {
                black_box(reference(black_box(input)));
            }
        }),
        agree: Box::new(move || inputs.iter().all(|input| ours(input) == reference(input))),
    }
}

/// Both write into one buffer.
fn statements(files: Vec<Vec<u8>>) -> Ways {
    let files = Rc::new(files);
    let (for_ours, for_reference) = (files.clone(), files.clone());
    let buffer = Rc::new(RefCell::new(vec![0; STATEMENT_BYTES]));
    let same_buffer = buffer.clone();
    Ways {
        count: files.len(),
        ours: Box::new(move || {
            let mut out = buffer.borrow_mut();
            let mut length = usize::MAX;
            for file in for_ours.iter() {
                black_box(exported::statement(
                    black_box(file),
                    black_box(&mut out),
                    &mut length,
                ));
                black_box(&length);
                black_box(&out[..]);
            }
        }),
        reference: Box::new(move || {
            let mut out = same_buffer.borrow_mut();
            for file in for_reference.iter() {
                let _ = black_box(statement::write(black_box(file), black_box(&mut out)));
                black_box(&out[..]);
            }
        }),
        agree: Box::new(move || files.iter().all(|file| same_statement(file))),
    }
}

fn same_statement(file: &[u8]) -> bool {
    let mut out = vec![0; STATEMENT_BYTES];
    let mut length = usize::MAX;
    let number = exported::statement(file, &mut out, &mut length);
    number == 0 && &out[..length] == statement::statement(file).as_bytes()
}

/// Number, line, start, end and count.
pub type Checked = (u32, usize, usize, usize, usize);

pub fn our_check(file: &[u8]) -> Checked {
    let [mut line, mut start, mut end, mut count] = [usize::MAX; 4];
    let number = exported::check(file, &mut line, &mut start, &mut end, &mut count);
    (number, line, start, end, count)
}

pub fn reference_check(file: &[u8]) -> Checked {
    match load(&mut Book::empty(), file) {
        Ok(loaded) => (
            0,
            0,
            loaded.part.start,
            loaded.part.end,
            loaded.count as usize,
        ),
        Err(fault) => (
            fault.refusal.number(),
            fault.line as usize,
            fault.part.start,
            fault.part.end,
            0,
        ),
    }
}

#[cfg(test)]
mod tests {
    use super::*;

    #[test]
    fn every_row_is_found_by_its_word() {
        let rows: Vec<Work> = tables().into_iter().flat_map(|table| table.rows).collect();
        assert_eq!(rows.len(), 34);
        for work in rows {
            assert_eq!(Work::of_word(&work.word()), Some(work));
        }
        let paper = Work::Statements(Case::Paper);
        assert_eq!(Work::of_word("paper"), Some(paper));
        assert_eq!(Work::of_word("check-paper"), None);
    }

    #[test]
    fn words() {
        for (word, work) in [
            ("longest", Work::Statements(Case::Longest)),
            ("check-cents-64", Work::Checks(Case::Cents(64))),
            ("transfers-300", Work::Statements(Case::TransferLines(300))),
            ("rates-25", Work::Statements(Case::RateOrders(25))),
            ("days-30", Work::Statements(Case::Days(30))),
            ("damaged-short", Work::Statements(Case::DamagedShort)),
            ("plus_days", Work::PlusDays),
        ] {
            assert_eq!(work.word(), word);
        }
    }

    /// Ours and the reference's, on the smallest rows of each kind.
    #[test]
    fn both_ways_agree() {
        for word in ["paper", "damaged", "check-damaged", "days-1", "plus_days"] {
            let ways = Work::of_word(word).expect("a row").ways();
            assert!((ways.agree)(), "{word}");
        }
    }
}
