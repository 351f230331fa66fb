//! The files that are timed.

use reference::file_cases;
use reference::order_text::*;
use reference::random::Random;

use crate::damage;

/// The lines of the longest file that the statement program takes whole.
const LINES: u64 = 1_524;

pub const HOLDERS: u32 = 64;
pub const SETTLEMENTS: u32 = 240;
const RECOGNISED: u64 = 354_054_743_000;

/// 1,524 lines: 64 holders, 240 settlements, 720 transfers, 18 rates.
pub fn longest() -> Vec<u8> {
    file_cases::longest()
}

/// 64 holders, then transfers among them, and E as the last of so many lines.
fn transfers(lines: u64) -> Vec<u8> {
    let mut random = Random::seeded(1_524, 0);
    let mut shares = [15_625; HOLDERS as usize];
    let mut orders = open(20140101, 6_000, 2_000, RECOGNISED) + &financings(HOLDERS);
    while line_feeds(&orders) < lines - 1 {
        let cedent = random.below(HOLDERS.into()) as usize;
        let step = random.between(1, u64::from(HOLDERS) - 1) as usize;
        let assignee = (cedent + step) % shares.len();
        if shares[cedent] > 0 {
            let parts = random.between(1, shares[cedent]);
            shares[cedent] -= parts;
            shares[assignee] += parts;
            orders += &transfer(cedent as u32 + 1, assignee as u32 + 1, parts);
        }
    }
    whole(orders).into_bytes()
}

/// As many transfers as the longest file has room for, beside O, F and E lines.
fn most_transfers() -> u64 {
    LINES - u64::from(1 + HOLDERS + 1)
}

/// Over 15 years: a settlement every so many days. The cents fall short of the
/// recognised ones, so that no rate makes one of them too much.
const DAYS_A_SETTLEMENT: u32 = 22;
const CENTS_A_SETTLEMENT: u64 = 1_400_000_000;

/// The days of all of them.
pub const RATE_DAYS: u32 = DAYS_A_SETTLEMENT * SETTLEMENTS;

/// 64 holders, 240 settlements over 5,280 days, then so many rate orders. Their
/// dates go up through the years in steps, 15 of them, and begin anew: up to 16
/// rates are stored.
fn rates(count: u64) -> Vec<u8> {
    const STEPS: u32 = 15;
    let mut random = Random::seeded(5_280, 0);
    let mut orders = open(20140101, 6_000, 2_000, RECOGNISED) + &financings(HOLDERS);
    for number in 1..=SETTLEMENTS {
        orders += &advance(day(DAYS_A_SETTLEMENT * number));
        orders += &settle(CENTS_A_SETTLEMENT);
    }
    for number in 0..count {
        let step = (number % u64::from(STEPS)) as u32 + 1;
        let date = day(RATE_DAYS * step / (STEPS + 1));
        orders += &rate(date, random.between(1_500, 2_500));
    }
    whole(orders).into_bytes()
}

/// As many rate orders as fit into the longest file.
fn most_rates() -> u64 {
    let others = 1 + HOLDERS + 2 * SETTLEMENTS + 1;
    LINES - u64::from(others)
}

/// 64 equal holders, and so many settlements of so many cents, each so many days
/// after the one before.
fn settlements(count: u32, cents: u64, days: u32) -> Vec<u8> {
    let mut orders = open(20140101, 6_000, 2_000, RECOGNISED) + &financings(HOLDERS);
    for number in 1..=count {
        orders += &advance(day(days * number));
        orders += &settle(cents);
    }
    whole(orders).into_bytes()
}

/// 10,000 settlements of so many cents, in files of 240 and a last one.
fn ten_thousand_settlements(cents: u64) -> Vec<Vec<u8>> {
    let mut left = 10_000;
    let mut files = Vec::new();
    while left > 0 {
        let count = SETTLEMENTS.min(left);
        files.push(settlements(count, cents, 1));
        left -= count;
    }
    files
}

/// Three holders; each month two advances, a transfer and a settlement, and at
/// the end a rate.
pub fn months(count: u32) -> Vec<u8> {
    let mut orders = open(20140101, 1_826, 2_000, 250_000_000)
        + &finance(101, 600_000)
        + &finance(202, 300_000)
        + &finance(303, 100_000);
    for month in 0..count {
        orders += &advance(day(30 * month + 14));
        orders += &transfer(101, 303, 10_000 + u64::from(month));
        orders += &advance(day(30 * month + 30));
        orders += &settle(5_000_000);
    }
    orders += &rate(day(15), 1_850);
    whole(orders).into_bytes()
}

/// Of document 01's example, a month, a year and the longest file 125 damaged
/// copies each, the same in every run, and an empty file.
fn damaged() -> Vec<Vec<u8>> {
    let mut random = Random::seeded(501, 0);
    let mut files = vec![Vec::new()];
    for file in [PAPER.as_bytes().to_vec(), months(1), months(12), longest()] {
        for _ in 0..30 {
            files.push(damage::cut(&mut random, &file));
            files.push(damage::flipped(&mut random, &file));
            files.push(damage::inserted(&mut random, &file));
            files.push(damage::deleted(&mut random, &file));
        }
        let count = line_count(&file) - 1;
        for count in [0, count - 1, count + 1] {
            files.push(damage::recounted(&file, count));
        }
        for rest in [&b"\n"[..], &file] {
            files.push([&file[..], rest].concat());
        }
    }
    files
}

pub fn line_count(file: &[u8]) -> u64 {
    file.iter().filter(|&&byte| byte == b'\n').count() as u64
}

/// A case: the files of a row. They are accepted; most damaged ones are refused.
#[derive(Clone, Copy, Debug, PartialEq, Eq)]
pub enum Case {
    /// Document 01's example.
    Paper,
    Longest,
    /// The most rate orders.
    Rates,
    /// The most transfers.
    Transfers,
    Damaged,
    /// Of the damaged files those under 20 lines.
    DamagedShort,
    DamagedLong,
    /// 10,000 settlements of so many cents.
    Cents(u64),
    /// Transfers up to so many lines.
    TransferLines(u64),
    RateOrders(u64),
    /// 65 settlements with so many days between.
    Days(u32),
}

impl Case {
    pub fn word(self) -> String {
        match self {
            Case::Paper => "paper".to_string(),
            Case::Longest => "longest".to_string(),
            Case::Rates => "rates".to_string(),
            Case::Transfers => "transfers".to_string(),
            Case::Damaged => "damaged".to_string(),
            Case::DamagedShort => "damaged-short".to_string(),
            Case::DamagedLong => "damaged-long".to_string(),
            Case::Cents(cents) => format!("cents-{cents}"),
            Case::TransferLines(lines) => format!("transfers-{lines}"),
            Case::RateOrders(count) => format!("rates-{count}"),
            Case::Days(days) => format!("days-{days}"),
        }
    }

    /// What stands before its row, given how many files it has.
    pub fn name(self, count: usize) -> String {
        match self {
            Case::Paper => "document 01's example".to_string(),
            Case::Longest => format!("longest file, {LINES} lines"),
            Case::Rates => format!("{} rate orders, {RATE_DAYS} days *", most_rates()),
            Case::Transfers => format!("{} transfers, {HOLDERS} holders", most_transfers()),
            Case::Damaged => format!("{count} damaged files"),
            Case::DamagedShort => format!("{count} of them under {SHORT} lines"),
            Case::DamagedLong => format!("{count} of them longer"),
            Case::Cents(cents) => format!("10000 settlements of {cents} cents"),
            Case::TransferLines(lines) => format!("{lines} lines"),
            Case::RateOrders(0) => "none".to_string(),
            Case::RateOrders(count) => format!("{count} orders"),
            Case::Days(days) => format!("{days} days"),
        }
    }

    pub fn files(self) -> Vec<Vec<u8>> {
        match self {
            Case::Paper => vec![PAPER.as_bytes().to_vec()],
            Case::Longest => vec![longest()],
            Case::Rates => vec![rates(most_rates())],
            Case::Transfers => vec![transfers(LINES)],
            Case::Damaged => damaged(),
            Case::DamagedShort => damaged_where(|lines| lines < SHORT),
            Case::DamagedLong => damaged_where(|lines| lines >= SHORT),
            Case::Cents(cents) => ten_thousand_settlements(cents),
            Case::TransferLines(lines) => vec![transfers(lines)],
            Case::RateOrders(count) => vec![rates(count)],
            Case::Days(days) => vec![settlements(65, 1_000_000, days)],
        }
    }
}

/// A damaged file with fewer lines is short.
const SHORT: u64 = 20;

fn damaged_where(wanted: impl Fn(u64) -> bool) -> Vec<Vec<u8>> {
    let mut files = damaged();
    files.retain(|file| wanted(line_count(file)));
    files
}

#[cfg(test)]
mod tests {
    use super::*;
    use reference::book::Book;
    use reference::file::load;
    use reference::line::LENGTH;
    use reference::statement::statement;

    fn accepted(file: &[u8]) -> u64 {
        load(&mut Book::empty(), file).expect("accepted").count + 1
    }

    #[test]
    fn as_many_lines_as_told() {
        assert_eq!(accepted(&longest()), LINES);
        assert_eq!(accepted(&rates(most_rates())), LINES);
        for lines in [100, 300, 500, 1_000, 1_500, LINES] {
            assert_eq!(accepted(&transfers(lines)), lines);
        }
        for (letter, file, count) in [
            (b'R', rates(most_rates()), most_rates()),
            (b'T', transfers(LINES), most_transfers()),
        ] {
            let lines = file.chunks(LENGTH).filter(|line| line[0] == letter);
            assert_eq!(lines.count() as u64, count);
        }
        assert_eq!(accepted(&months(1)), 10);
        assert_eq!(accepted(&months(12)), 54);
    }

    #[test]
    fn ten_thousand() {
        let files = ten_thousand_settlements(127);
        let lines: u64 = files.iter().map(|file| accepted(file)).sum();
        assert_eq!(lines, files.len() as u64 * 66 + 20_000);
    }

    #[test]
    fn most_damaged_files_are_refused() {
        let files = damaged();
        assert_eq!(files.len(), 501);
        let refused = files.iter().filter(|file| statement(file).starts_with('X'));
        let refused = refused.count();
        assert!(refused > 450, "{refused}");
    }
}
