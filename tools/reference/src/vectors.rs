//! The cases, and the lines to print: inputs for the test programs of another
//! implementation, and the outputs expected of them. Formats: README.md.

use std::fmt::Display;

use crate::apportionment::{apportion, HIGHEST_AMOUNT, PLACES};
use crate::book::Book;
use crate::calendar::{month_length, Calendar, FIRST, LAST};
use crate::call_cases::call_cases;
use crate::file_cases::file_cases;
use crate::random::Random;
use crate::rates::{daily, HIGHEST_ANNUAL};
use crate::refusal::Refusal;
use crate::report_cases::report_cases;

/// `ANNUAL NUMBER DAILY` for every annual rate, then for some beyond.
pub fn rates() -> Vec<String> {
    let beyond = [
        4_001,
        4_002,
        65_535,
        4_294_967_295,
        4_294_967_296,
        4_294_969_296,
        u64::MAX,
    ];
    (0..=HIGHEST_ANNUAL)
        .chain(beyond)
        .map(|annual| format!("{annual} {}", number_and_value(daily(annual))))
        .collect()
}

pub fn calendar_input() -> Vec<String> {
    let cases = calendar_cases(Calendar::gregorian());
    counted(cases.iter().map(|case| spaced(case)).collect())
}

pub fn calendar_output() -> Vec<String> {
    let calendar = Calendar::gregorian();
    let mut lines = year_lines(calendar);
    for [a, n, b] in calendar_cases(calendar) {
        lines.push(format!(
            "{} {} {} {}",
            u8::from(calendar.is_date(a)),
            number_and_value(calendar.day_count(a)),
            number_and_value(calendar.plus_days(a, n)),
            number_and_value(calendar.days_between(a, b)),
        ));
    }
    lines
}

pub fn apportionment_input() -> Vec<String> {
    let mut lines = Vec::new();
    for case in apportionment_cases() {
        let mut numbers = vec![case.amount, case.count, case.weights.len() as u64];
        numbers.extend(&case.weights);
        lines.push(spaced(&numbers));
    }
    counted(lines)
}

pub fn apportionment_output() -> Vec<String> {
    let mut lines = Vec::new();
    for case in apportionment_cases() {
        let mut weights = [0; PLACES];
        weights[..case.weights.len()].copy_from_slice(&case.weights);
        let (answer, parts) = match apportion(case.amount, case.count, &weights) {
            Ok(parts) => (0, parts),
            Err(fault) => (fault as u32, [0; PLACES]),
        };
        lines.push(format!("{answer} {}", spaced(&parts)));
    }
    lines
}

pub fn call_input() -> Vec<String> {
    counted(call_cases().iter().map(|call| call.to_string()).collect())
}

pub fn call_output() -> Vec<String> {
    let mut book = Book::empty();
    let mut lines = Vec::new();
    for call in call_cases() {
        let answer = call.run(&mut book);
        lines.push(call.answer_line(&answer));
    }
    lines
}

/// Not a text: the files among the cases hold any bytes.
pub fn file_input() -> Vec<u8> {
    let cases = file_cases();
    let mut input = format!("{}\n", cases.len()).into_bytes();
    for case in cases {
        case.put(&mut input);
    }
    input
}

pub fn file_output() -> Vec<String> {
    let mut book = Book::empty();
    let mut lines = Vec::new();
    for case in file_cases() {
        lines.extend(case.answer_lines(&mut book));
    }
    lines
}

/// Not a text either.
pub fn report_input() -> Vec<u8> {
    let cases = report_cases();
    let mut input = format!("{}\n", cases.len()).into_bytes();
    for case in cases {
        case.put(&mut input);
    }
    input
}

pub fn report_output() -> Vec<u8> {
    let mut output = Vec::new();
    for case in report_cases() {
        case.put_answer(&mut output);
    }
    output
}

/// 0 and the value, or the refusal's number and 0.
fn number_and_value<T: Display>(answer: Result<T, Refusal>) -> String {
    match answer {
        Ok(value) => format!("0 {value}"),
        Err(refusal) => format!("{} 0", refusal.number()),
    }
}

fn spaced<T: Display>(numbers: &[T]) -> String {
    let words: Vec<String> = numbers.iter().map(T::to_string).collect();
    words.join(" ")
}

/// The lines after a first one with their number.
fn counted(mut lines: Vec<String>) -> Vec<String> {
    lines.insert(0, lines.len().to_string());
    lines
}

/// `YEAR COUNT DIGEST` for each year: its number of dates, and a digest of all
/// dates so far, their day counts and the dates found again from these.
fn year_lines(calendar: &Calendar) -> Vec<String> {
    let mut lines = Vec::new();
    let mut digest: u64 = 0;
    for year in 1999..=2200 {
        let mut count = 0;
        for number in year * 10000..=year * 10000 + 9999 {
            if let Ok(days) = calendar.day_count(number) {
                count += 1;
                let again = calendar.plus_days(FIRST, days).expect("days of a date");
                for value in [number, days, again] {
                    digest = (digest * 31 + u64::from(value)) % 4_294_967_291;
                }
            }
        }
        lines.push(format!("{year} {count} {digest}"));
    }
    lines
}

/// A date or not, a count of days, another date or not.
fn calendar_cases(calendar: &Calendar) -> Vec<[u32; 3]> {
    // The paper's examples 9 and 10.
    let mut cases = vec![
        [20140101, 5479, 20290101],
        [20290101, 5479, 20140101],
        [20240229, 1, 21000229],
        [21000229, 1, 20240229],
    ];

    // The 29th of February in every year.
    for year in 2000..=2199 {
        cases.push([year * 10000 + 229, 366, year * 10000 + 301]);
    }

    // Both ends of every month, and the days just outside it.
    for year in [2000, 2023, 2024, 2100, 2199] {
        for month in 1..=12 {
            let day_0 = (year * 100 + month) * 100;
            let length = month_length(year, month);
            let (first, last) = (day_0 + 1, day_0 + length);
            cases.push([first, length - 1, last]);
            cases.push([last, 1, first]);
            cases.push([day_0, 1, last]);
            cases.push([last + 1, 0, first]);
        }
    }

    // Numbers that are no dates, in both places.
    let no_dates = [
        0, 1, 31, 101, 1231, 2014, 140101, 201401, 2014010, // too short
        19000228, 19960229, 19990101, 19991231, 20000000, 20000099, 20000100, // too early
        22000101, 22000228, 22000229, 22000301, 22001231, 24000229, 99991231, // too late
        20000001, 20240031, 20140015, 21990001, // month 0
        20001301, 20141301, 20241331, 21001301, 21991301, // month 13
        20142001, 20009901, 20149999, 21999999, // months beyond
        20240200, 20240230, 20240231, 20230230, 20000230, 21000230, 21000231, // February
        20230431, 20230631, 20230931, 20231131, 20240132, 20241299, 21991232, // other months
        100000000, 999999999, // more than eight digits
        120140101, 1020140101, 4220140101, 201401010, 2014010100, // a date if cut to eight
        2147483647, 2147483648, 4294967294, 4294967295, // ends of 31 and 32 bits
    ];
    for number in no_dates {
        cases.push([number, 0, 20140101]);
        cases.push([20140101, 0, number]);
    }
    cases.push([0, u32::MAX, 0]);
    cases.push([20230229, u32::MAX, 21000229]);
    cases.push([u32::MAX, u32::MAX, u32::MAX]);

    // Sums: none, one day, up to the last date and beyond it, the highest, and
    // those that would come round to FIRST and the day after in 32 bits.
    for start in [
        FIRST, 20000228, 20140101, 20231231, 20240228, 20991231, 21000228, 21991230, LAST,
    ] {
        let passed = calendar.day_count(start).expect("a date");
        let left = calendar.day_count(LAST).expect("a date") - passed;
        let around = 0_u32.wrapping_sub(passed);
        for days in [
            0,
            1,
            2,
            left,
            left + 1,
            left + 2,
            1 << 31,
            around,
            around + 1,
            u32::MAX,
        ] {
            cases.push([start, days, LAST]);
        }
        cases.push([start, 0, FIRST]);
        cases.push([start, 0, start]);
    }

    // Dates at random, in both directions.
    let mut random = Random::new();
    for _ in 0..60 {
        let [a, b] = [0; 2].map(|_| {
            let days = random.below(73_049) as u32;
            calendar.plus_days(FIRST, days).expect("a date")
        });
        cases.push([a, random.below(80_000) as u32, b]);
        cases.push([b, random.below(6_001) as u32, a]);
    }
    // Numbers that look like dates, and any numbers.
    for _ in 0..60 {
        let [a, b] = [0; 2].map(|_| {
            let year = 1998 + random.below(205);
            (year * 10000 + random.below(14) * 100 + random.below(33)) as u32
        });
        cases.push([a, random.below(80_000) as u32, b]);
    }
    for _ in 0..20 {
        cases.push([0; 3].map(|_| random.below(1 << 32) as u32));
    }
    cases
}

/// An amount, the count of weights to use, and the weights before the zeros.
struct ApportionmentCase {
    amount: u64,
    count: u64,
    weights: Vec<u64>,
}

/// The cases while they are put together.
struct ApportionmentCases(Vec<ApportionmentCase>);

impl ApportionmentCases {
    fn by_count(&mut self, amount: u64, count: u64, weights: &[u64]) {
        self.0.push(ApportionmentCase {
            amount,
            count,
            weights: weights.to_vec(),
        });
    }

    fn by_all(&mut self, amount: u64, weights: &[u64]) {
        self.by_count(amount, weights.len() as u64, weights);
    }
}

fn apportionment_cases() -> Vec<ApportionmentCase> {
    let mut cases = ApportionmentCases(Vec::new());

    // The paper's examples 6, 7 and 8.
    let shares = [350_100, 60_800, 441_600, 10_000, 137_500];
    cases.by_all(100, &shares);
    cases.by_all(1, &[500_000, 500_000]);
    cases.by_all(100, &[20_000_000, 10_000_000]);

    // All equal.
    for amount in [127, 64, 63, 65, HIGHEST_AMOUNT] {
        cases.by_all(amount, &[15_625; PLACES]);
    }
    for size in [
        2, 3, 4, 5, 6, 7, 8, 9, 11, 13, 16, 17, 23, 31, 32, 33, 47, 63, 64,
    ] {
        for amount in [1, size as u64 - 1, size as u64 + 1] {
            cases.by_all(amount, &vec![1; size]);
        }
    }
    for size in [3, 7, 19] {
        cases.by_all(HIGHEST_AMOUNT, &vec![1_000_000; size]);
        cases.by_all(HIGHEST_AMOUNT - 1, &vec![4_000_000; size]);
    }

    // Some equal.
    for amount in 1..=9 {
        cases.by_all(amount, &[1, 2, 3, 2, 1]);
        cases.by_all(amount, &[5, 3, 5, 3, 5, 3]);
        cases.by_all(amount, &[1, 1, 4, 1]);
    }
    for amount in [1, 2, 3, 5, 99_999_999_999] {
        cases.by_all(amount, &[250_000, 125_000, 250_000, 125_000, 250_000]);
    }

    // Zero weights first, last, between, all but one.
    let mut only_first = [0; PLACES];
    only_first[0] = 7;
    let mut only_last = [0; PLACES];
    only_last[PLACES - 1] = 7;
    for amount in [1, 2, 100, HIGHEST_AMOUNT] {
        cases.by_all(amount, &[0, 1, 1, 1]);
        cases.by_all(amount, &[1, 1, 1, 0]);
        cases.by_all(amount, &[0, 0, 3, 0, 2, 0, 2, 0, 0]);
        cases.by_all(amount, &[0, 0, 0, 92_000_000, 0]);
        cases.by_all(amount, &only_first);
        cases.by_all(amount, &only_last);
    }

    // Amounts at the edges, by good and by bad weights.
    for amount in [
        0,
        1,
        HIGHEST_AMOUNT - 1,
        HIGHEST_AMOUNT,
        HIGHEST_AMOUNT + 1,
        1 << 63,
        u64::MAX,
    ] {
        cases.by_all(amount, &shares);
        cases.by_all(amount, &[1]);
        cases.by_all(amount, &[92_000_000]);
        cases.by_all(amount, &[30_666_667, 30_666_666, 30_666_667]);
        cases.by_all(amount, &[0, 0]);
        cases.by_all(amount, &[92_000_001]);
    }

    // Total weights at the edges.
    cases.by_all(HIGHEST_AMOUNT, &[1_437_500; PLACES]);
    let mut one_over = [1_437_500; PLACES];
    one_over[PLACES - 1] += 1;
    cases.by_all(HIGHEST_AMOUNT, &one_over);
    cases.by_all(10, &[46_000_000, 46_000_000]);
    cases.by_all(10, &[46_000_000, 46_000_001]);
    cases.by_all(10, &[1, 0, 92_000_000]);
    cases.by_all(10, &[1, 0, 91_999_999]);
    cases.by_all(10, &[0]);
    cases.by_all(10, &[0; PLACES]);
    cases.by_count(10, 1, &[]);
    cases.by_count(10, 64, &[]);

    // Total weights that would come round to a small number in 64 or 32 bits.
    cases.by_all(10, &[u64::MAX]);
    cases.by_all(10, &[u64::MAX, 1]);
    cases.by_all(10, &[u64::MAX, 2]);
    cases.by_all(10, &[5, u64::MAX, 5, 5]);
    cases.by_all(10, &[u64::MAX - 3, 1_000, 1_000]);
    cases.by_all(10, &[1 << 63, 1 << 63]);
    cases.by_all(10, &[1 << 63, 10, 1 << 63]);
    cases.by_all(10, &[92_000_001, u64::MAX]);
    cases.by_all(10, &[u64::MAX, 92_000_001]);
    cases.by_all(10, &[1 << 58; PLACES]);
    cases.by_all(10, &[(1 << 58) + 1; PLACES]);
    cases.by_all(10, &[u64::MAX; PLACES]);
    cases.by_all(10, &[1 << 32]);
    cases.by_all(10, &[(1 << 32) + 5, 5]);
    cases.by_all(10, &[u32::MAX.into(), 6]);

    // Weights behind the count.
    for count in 1..=3 {
        cases.by_count(11, count, &[4, 3, 4, u64::MAX, u64::MAX]);
        cases.by_count(11, count, &[0, 0, 6, 6, 92_000_001]);
    }
    cases.by_count(11, 4, &[4, 3, 4, u64::MAX, u64::MAX]);
    let mut huge_behind = [u64::MAX; PLACES];
    huge_behind[0] = 2;
    huge_behind[1] = 1;
    cases.by_count(100, 2, &huge_behind);
    cases.by_count(100, 63, &only_last);

    // Counts beyond the weights listed, and counts that are none.
    for count in [6, 63, 64] {
        cases.by_count(100, count, &shares);
        cases.by_count(1, count, &[1, 1]);
    }
    for count in [
        0,
        65,
        66,
        128,
        1_000,
        (1 << 32) - 1,
        1 << 32,
        (1 << 32) + 5,
        u64::MAX,
    ] {
        cases.by_count(100, count, &shares);
        cases.by_count(HIGHEST_AMOUNT + 1, count, &[]);
    }
    cases.by_count(100, 65, &[1; PLACES]);

    // At random: small weights that make ties, unit-days, full books, anything.
    let mut random = Random::new();
    for _ in 0..30 {
        let weights = random.weights(10, 4);
        cases.by_all(random.below(30), &weights);
    }
    for _ in 0..25 {
        let weights = random.weights(20, 4_600_000);
        cases.by_all(random.below(HIGHEST_AMOUNT + 1), &weights);
    }
    for _ in 0..10 {
        let weights = random.weights(64, 100);
        cases.by_all(random.below(100_000), &weights);
    }
    for _ in 0..8 {
        let weights = [0; PLACES].map(|_| random.below(1_437_501));
        cases.by_all(random.below(HIGHEST_AMOUNT + 1), &weights);
    }
    for _ in 0..10 {
        let weights = random.weights(6, 31_000_000);
        let count = random.below(10);
        cases.by_count(random.below(HIGHEST_AMOUNT + 1), count, &weights);
    }
    for _ in 0..5 {
        let weights = random.weights(6, u64::MAX);
        cases.by_all(random.below(HIGHEST_AMOUNT + 1), &weights);
    }
    cases.0
}

#[cfg(test)]
mod tests {
    use super::*;

    #[test]
    fn inputs_begin_with_their_number_of_cases() {
        for lines in [calendar_input(), apportionment_input(), call_input()] {
            assert_eq!(lines[0], (lines.len() - 1).to_string());
        }
    }

    #[test]
    fn outputs_have_a_line_for_each_case() {
        assert_eq!(calendar_output().len(), 202 + calendar_input().len() - 1);
        let output = apportionment_output();
        assert_eq!(output.len(), apportionment_input().len() - 1);
        assert_eq!(call_output().len(), call_input().len() - 1);
    }

    #[test]
    fn inputs_keep_to_their_sizes() {
        assert!(calendar_input().len() > 400);
        let lines = apportionment_input();
        assert!(lines.iter().all(|line| line.len() <= 1_400));
        assert!(bytes(&lines) < 60_000);
        assert!(bytes(&call_input()) < 62_000);
        assert!(file_input().len() <= 500_000);
        assert!(report_input().len() <= 200_000);
    }

    /// The first line, and the first case: the paper's example file.
    #[test]
    fn the_file_input_begins_with_its_number_of_cases() {
        let first = format!("{}\n1 301\nO20140101", file_cases().len());
        assert!(file_input().starts_with(first.as_bytes()));
    }

    #[test]
    fn the_papers_file_as_printed() {
        let expected = [
            "0 0 6 301 301 0",
            "0 20140131 0 0 1627656000 100 0",
            "2",
            "1 500000 0 67",
            "2 500000 0 33",
        ];
        assert_eq!(file_output()[..5], expected);
    }

    /// The paper's file again, in the least buffer.
    #[test]
    fn the_report_input_begins_with_its_number_of_cases() {
        let first = format!("{}\n3089 301\nO20140101", report_cases().len());
        assert!(report_input().starts_with(first.as_bytes()));
        assert!(report_output().starts_with(b"0 175 "));
    }

    fn bytes(lines: &[String]) -> usize {
        lines.iter().map(|line| line.len() + 1).sum()
    }

    #[test]
    fn years_without_dates_leave_the_digest() {
        let lines = year_lines(Calendar::gregorian());
        assert_eq!(lines[0], "1999 0 0");
        assert!(lines[1].starts_with("2000 366 "));
        let digest = lines[200].strip_prefix("2199 365 ").unwrap();
        assert_eq!(lines[201], format!("2200 0 {digest}"));
    }

    #[test]
    fn paper_example_9_as_printed() {
        let line = &calendar_output()[202];
        assert_eq!(line, "1 0 5114 0 20290101 0 5479");
    }

    #[test]
    fn paper_example_8_as_printed() {
        let line = &apportionment_output()[2];
        assert!(line.starts_with("0 67 33 0 0 "));
    }
}
