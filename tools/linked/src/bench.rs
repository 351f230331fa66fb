//! The bench: ours, the archive's functions, against the reference, by time and by
//! instructions.

use std::hint::black_box;

use reference::statement;

use crate::exported::{self, STATEMENT_BYTES};
use crate::files::Case;
use crate::instructions::{self, Counts};
use crate::rows::{self, our_check, reference_check, Work};
use crate::small_calls::{self, Inputs};
use crate::stack;
use crate::timing::{in_turns, Times};

const EXPLANATION: &str = "\
Ours are the archive's functions, called from Rust; the reference is tools/reference,
compiled into the same program (opt-level 3, fat LTO, one codegen unit, no overflow
checks). Times are nanoseconds of the thread's processor time, the medians of the rounds,
11 or more, in which ours and the reference take turns. The ratio is ours divided by the
reference, of these medians; behind it stands the same of the least times. Instructions
are those that callgrind counts in one run, in a process of its own. Both are of one
statement or call; where a row has several files or inputs, the mean. Before a row is
timed, what both give is compared. A statement is file bytes in, statement bytes out. The
buffer that it goes into is allocated once, the same for both, and not cleared between
calls.
The reference goes day by day wherever days pass, and for each rate order through all days
since the first; rows with * consist of little else.";

pub fn bench() {
    println!("{EXPLANATION}");
    for table in rows::tables() {
        heading(&table.heading);
        let mut without_orders = None;
        for work in table.rows {
            let row = Row::of(work);
            row.print();
            match (work, &without_orders) {
                (Work::Statements(Case::RateOrders(0)), _) => without_orders = Some(row),
                (Work::Statements(Case::RateOrders(count)), Some(without)) => {
                    row.print_more(without, count);
                }
                _ => {}
            }
        }
    }
    peak_stack();
}

/// A row's figures, of one statement or call.
struct Row {
    name: String,
    times: Times,
    counts: Option<Counts>,
}

impl Row {
    fn of(work: Work) -> Self {
        let mut ways = work.ways();
        let name = work.name(ways.count);
        assert!((ways.agree)(), "{name}: answers differ");
        let times = in_turns(&mut ways.ours, &mut ways.reference);
        let inputs = ways.count as f64;
        Row {
            name,
            times: Times {
                ours: times.ours / inputs,
                reference: times.reference / inputs,
                our_least: times.our_least / inputs,
                reference_least: times.reference_least / inputs,
            },
            counts: instructions::of_row(work).map(|counts| Counts {
                ours: counts.ours / inputs,
                reference: counts.reference / inputs,
            }),
        }
    }

    fn print(&self) {
        let times = &self.times;
        println!(
            "{:32}{}{} {}{}",
            self.name,
            figures(times.ours, times.reference),
            ratio(times.ours, times.reference),
            ratio(times.our_least, times.reference_least),
            instruction_columns(self.counts)
        );
    }

    /// What each of so many orders adds to the row without any.
    fn print_more(&self, without: &Row, orders: u64) {
        let more = |with: f64, without: f64| (with - without) / orders as f64;
        let ours = more(self.times.our_least, without.times.our_least);
        let reference = more(self.times.reference_least, without.times.reference_least);
        let counts = match (self.counts, without.counts) {
            (Some(with), Some(without)) => Some(Counts {
                ours: more(with.ours, without.ours),
                reference: more(with.reference, without.reference),
            }),
            _ => None,
        };
        println!(
            "{:32}{}{:9}{}{}",
            "    an order, by the least times",
            figures(ours, reference),
            "",
            ratio(ours, reference),
            instruction_columns(counts)
        );
    }
}

fn heading(text: &str) {
    println!("\n{text}");
    println!(
        "{:32}{:>22}{:17}{:>24}",
        "", "nanoseconds", "", "instructions"
    );
    println!(
        "{:32}{:>10}{:>12}{:>8}{:>9}{:>12}{:>12}{:>8}",
        "", "ours", "reference", "ratio", "of least", "ours", "reference", "ratio"
    );
}

fn instruction_columns(counts: Option<Counts>) -> String {
    match counts {
        Some(counts) => format!(
            "  {}{}",
            figures(counts.ours, counts.reference),
            ratio(counts.ours, counts.reference)
        ),
        None => format!("{:>12}{:>12}{:>8}", "-", "-", "-"),
    }
}

/// Small ones with a digit behind the point.
fn figures(ours: f64, reference: f64) -> String {
    let digits = if reference < 1_000.0 { 1 } else { 0 };
    format!("{ours:10.digits$}{reference:12.digits$}")
}

fn ratio(ours: f64, reference: f64) -> String {
    format!("{:8.3}", ours / reference)
}

pub fn peak_stack() {
    println!("\nPeak stack, in bytes: the deepest byte that the calls of a row wrote below their");
    println!("caller's frame, in a thread whose stack was filled with a pattern before.");
    println!("{:32}{:>12}{:>14}", "", "ours", "reference");
    let kinds = [Case::Longest, Case::Rates, Case::Transfers, Case::Damaged].map(|case| {
        let files = case.files();
        (case.name(files.len()).replace(" *", ""), files)
    });
    println!("Statements");
    for (name, files) in &kinds {
        let ours = |file: &Vec<u8>| our_statement(file);
        peak_row(name, files, ours, |file| reference_statement(file));
    }
    println!("Checks");
    for (name, files) in &kinds {
        let ours = |file: &Vec<u8>| our_check(file);
        peak_row(name, files, ours, |file| reference_check(file));
    }
    println!("Small calls");
    small_peaks();
}

fn small_peaks() {
    let inputs = Inputs::prepared();
    peak_row(
        "daily_rate",
        &inputs.annuals,
        small_calls::our_rate,
        small_calls::reference_rate,
    );
    peak_row(
        "plus_days",
        &inputs.sums,
        small_calls::our_sum,
        small_calls::reference_sum,
    );
    peak_row(
        "write_line",
        &inputs.fields,
        small_calls::our_written,
        small_calls::reference_written,
    );
    peak_row(
        "read_line",
        &inputs.lines,
        |line| small_calls::our_read(line),
        |line| small_calls::reference_read(line),
    );
}

fn peak_row<Input: Sync, Answer>(
    name: &str,
    inputs: &[Input],
    ours: impl Fn(&Input) -> Answer + Sync,
    reference: impl Fn(&Input) -> Answer + Sync,
) {
    let ours = stack::peak(|| {
        for input in inputs {
            black_box(ours(black_box(input)));
        }
    });
    let reference = stack::peak(|| {
        for input in inputs {
            black_box(reference(black_box(input)));
        }
    });
    println!("{name:32}{ours:12}{reference:14}");
}

fn our_statement(file: &[u8]) {
    let mut out = vec![0; STATEMENT_BYTES];
    let mut length = 0;
    exported::statement(black_box(file), &mut out, &mut length);
    black_box(&out);
}

fn reference_statement(file: &[u8]) {
    let mut out = vec![0; STATEMENT_BYTES];
    let _ = black_box(statement::write(black_box(file), &mut out));
    black_box(&out);
}

#[cfg(test)]
mod tests {
    use super::*;

    #[test]
    fn ours_divided_by_the_reference() {
        assert_eq!(ratio(1.0, 4.0), "   0.250");
        assert_eq!(ratio(300.0, 200.0), "   1.500");
        assert_eq!(figures(12.34, 999.94), "      12.3       999.9");
        assert_eq!(figures(12.34, 1_000.0), "        12        1000");
    }

    /// Every line of a table is as wide as its heading, and a missing count a dash.
    #[test]
    fn columns() {
        let counts = |ours, reference| Some(Counts { ours, reference });
        assert_eq!(
            instruction_columns(counts(2_000.0, 1_000.0)),
            "        2000        1000   2.000"
        );
        assert_eq!(
            instruction_columns(None),
            "           -           -       -"
        );
    }
}
