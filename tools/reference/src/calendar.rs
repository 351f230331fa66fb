//! Civil dates. The calendar is the list of all its dates, made by going from
//! each day to the next; every question is answered by looking into that list.

use std::sync::OnceLock;

use crate::refusal::Refusal;

pub const FIRST: u32 = 20000101;
pub const LAST: u32 = 21991231;

/// All dates in order. A date's place in the list is its day count from `FIRST`.
pub struct Calendar {
    dates: Vec<u32>,
}

impl Calendar {
    /// The one calendar there is. Its list is made when it is first asked for.
    pub fn gregorian() -> &'static Self {
        static GREGORIAN: OnceLock<Calendar> = OnceLock::new();
        GREGORIAN.get_or_init(|| {
            let mut dates = vec![FIRST];
            let mut date = FIRST;
            while date != LAST {
                date = next_day(date);
                dates.push(date);
            }
            Calendar { dates }
        })
    }

    pub fn is_date(&self, number: u32) -> bool {
        self.day_count(number).is_ok()
    }

    /// Days from `FIRST` to the date.
    pub fn day_count(&self, date: u32) -> Result<u32, Refusal> {
        match self.dates.binary_search(&date) {
            Ok(place) => Ok(place as u32),
            Err(_) => Err(Refusal::Date),
        }
    }

    /// The date so many days after the start.
    pub fn plus_days(&self, start: u32, days: u32) -> Result<u32, Refusal> {
        let place = u64::from(self.day_count(start)?) + u64::from(days);
        self.dates.get(place as usize).copied().ok_or(Refusal::Date)
    }

    /// Days from one date to the other, negative if the other is earlier.
    pub fn days_between(&self, from: u32, to: u32) -> Result<i64, Refusal> {
        let from = self.day_count(from)?;
        let to = self.day_count(to)?;
        Ok(i64::from(to) - i64::from(from))
    }
}

fn next_day(date: u32) -> u32 {
    let (year, month, day) = (date / 10000, date / 100 % 100, date % 100);
    if day < month_length(year, month) {
        date + 1
    } else if month < 12 {
        year * 10000 + (month + 1) * 100 + 1
    } else {
        (year + 1) * 10000 + 101
    }
}

/// The number of days in a month from 1 to 12.
pub fn month_length(year: u32, month: u32) -> u32 {
    match month {
        2 if is_leap(year) => 29,
        2 => 28,
        4 | 6 | 9 | 11 => 30,
        _ => 31,
    }
}

fn is_leap(year: u32) -> bool {
    year.is_multiple_of(4) && (!year.is_multiple_of(100) || year.is_multiple_of(400))
}

#[cfg(test)]
mod tests {
    use super::*;

    #[test]
    fn paper_example_9() {
        let calendar = Calendar::gregorian();
        assert_eq!(calendar.plus_days(20140101, 5479), Ok(20290101));
        assert_eq!(calendar.days_between(20140101, 20290101), Ok(5479));
        assert_eq!(calendar.days_between(20290101, 20140101), Ok(-5479));
    }

    #[test]
    fn paper_example_10() {
        let calendar = Calendar::gregorian();
        assert!(calendar.is_date(20240229));
        assert!(!calendar.is_date(21000229));
    }

    #[test]
    fn two_hundred_years() {
        // 49 leap days: every fourth year, without 2100.
        let calendar = Calendar::gregorian();
        assert_eq!(calendar.dates.len(), 200 * 365 + 49);
        assert_eq!(calendar.day_count(FIRST), Ok(0));
        assert_eq!(calendar.day_count(LAST), Ok(73048));
    }

    #[test]
    fn other_numbers_are_no_dates() {
        let calendar = Calendar::gregorian();
        for number in [
            0,
            19991231,
            20000100,
            20000001,
            20000132,
            20001301,
            20010431,
            20230229,
            22000101,
            120140101,
            u32::MAX,
        ] {
            assert!(!calendar.is_date(number), "{number}");
            assert_eq!(calendar.day_count(number), Err(Refusal::Date));
            assert_eq!(calendar.plus_days(number, 0), Err(Refusal::Date));
            assert_eq!(calendar.days_between(number, FIRST), Err(Refusal::Date));
            assert_eq!(calendar.days_between(FIRST, number), Err(Refusal::Date));
        }
    }

    #[test]
    fn sums_stop_at_the_last_date() {
        let calendar = Calendar::gregorian();
        assert_eq!(calendar.plus_days(LAST, 0), Ok(LAST));
        assert_eq!(calendar.plus_days(LAST, 1), Err(Refusal::Date));
        assert_eq!(calendar.plus_days(FIRST, 73048), Ok(LAST));
        assert_eq!(calendar.plus_days(FIRST, 73049), Err(Refusal::Date));
        assert_eq!(calendar.plus_days(LAST, u32::MAX), Err(Refusal::Date));
    }
}
