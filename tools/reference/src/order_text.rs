//! The lines of an order file as texts, and the paper's example file.

use crate::book::Book;
use crate::calendar::Calendar;
use crate::calls::{Call, Opening};

/// The whole right, in parts.
pub const ALL: u64 = 1_000_000;

/// The highest third number.
pub const WIDEST: u64 = 999_999_999_999_999;

pub const PAPER: &str = concat!(
    "O20140101       30     2000            100\n",
    "F                1                 1000000\n",
    "D20140111                                 \n",
    "T                1        2         500000\n",
    "D20140131                                 \n",
    "S                                      100\n",
    "E                                        6\n",
);

/// Any texts at the right ends of their columns.
pub fn line(letter: &str, [date, first, second, third]: [&str; 4]) -> String {
    format!("{letter}{date:>8}{first:>9}{second:>9}{third:>15}\n")
}

pub fn open(date: u32, term: u32, annual: u32, cents: u64) -> String {
    format!("O{date:>8}{term:>9}{annual:>9}{cents:>15}\n")
}

pub fn finance(holder: u32, share: u64) -> String {
    format!("F{holder:>17}{share:>24}\n")
}

pub fn advance(date: u32) -> String {
    format!("D{date:>8}{:>33}\n", "")
}

pub fn rate(date: u32, annual: u64) -> String {
    format!("R{date:>8}{annual:>33}\n")
}

pub fn transfer(cedent: u32, assignee: u32, parts: u64) -> String {
    format!("T{cedent:>17}{assignee:>9}{parts:>15}\n")
}

pub fn settle(cents: u64) -> String {
    format!("S{cents:>41}\n")
}

pub fn end(count: u64) -> String {
    format!("E{count:>41}\n")
}

/// The lines and the E line that belongs to them.
pub fn whole(lines: impl AsRef<str>) -> String {
    let lines = lines.as_ref();
    lines.to_string() + &end(line_feeds(lines))
}

pub fn line_feeds(lines: &str) -> u64 {
    lines.matches('\n').count() as u64
}

/// Three lines: 365 days from 20140101 on, one million euros at 2 percent, two
/// holders.
pub fn opened() -> String {
    open(20140101, 365, 2_000, 100_000_000) + &finance(1, 600_000) + &finance(2, 400_000)
}

/// So many F lines, for the holders from 1 on; 64 are the whole.
pub fn financings(count: u32) -> String {
    (1..=count).map(|holder| finance(holder, 15_625)).collect()
}

/// So many days after 20140101.
pub fn day(number: u32) -> u32 {
    let calendar = Calendar::gregorian();
    calendar.plus_days(20140101, number).expect("a date")
}

/// The lines of a call, if a file can have them.
pub fn lines_of(call: &Call) -> Option<String> {
    let dates = 0..=99_999_999;
    let short = 0..=999_999_999;
    let long = 0..=WIDEST;
    match *call {
        Call::Open(Opening {
            first_day,
            term,
            annual,
            cents,
            ref holders,
            ref shares,
        }) => {
            let annual = u32::try_from(annual).ok()?;
            let fit = dates.contains(&first_day)
                && short.contains(&term)
                && short.contains(&annual)
                && long.contains(&cents)
                && holders.iter().all(|holder| short.contains(holder));
            let lists_fit = holders.len() == shares.len() && holders.len() <= Book::POSITIONS;
            let mut lines = open(first_day, term, annual, cents);
            for (&holder, &share) in holders.iter().zip(shares) {
                lines += &finance(holder, share.into());
            }
            (fit && lists_fit).then_some(lines)
        }
        Call::Advance { date } => dates.contains(&date).then(|| advance(date)),
        Call::Rate { date, annual } => {
            let fit = dates.contains(&date) && long.contains(&annual);
            fit.then(|| rate(date, annual))
        }
        Call::Transfer {
            cedent,
            assignee,
            parts,
        } => {
            let fit = short.contains(&cedent) && short.contains(&assignee) && long.contains(&parts);
            fit.then(|| transfer(cedent, assignee, parts))
        }
        Call::Settle { cents } => long.contains(&cents).then(|| settle(cents)),
        Call::Empty | Call::Position { .. } | Call::PositionAt { .. } | Call::Totals => None,
    }
}
