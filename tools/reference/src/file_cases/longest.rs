//! The longest file that the statement program takes whole.

use super::*;
use crate::book::{Cents, Parts};
use crate::random::Random;

/// 1,524 lines, 65,532 bytes: 64 holders and all 240 settlements, one every 25
/// days up to the term's end, with three transfers before each and 18 rates.
pub fn longest() -> Vec<u8> {
    let mut life = Life {
        book: Book::empty(),
        lines: open(20140101, 6_000, 2_000, 354_054_743_000) + &financings(64),
        random: Random::seeded(65_532, 0),
    };
    load(&mut life.book, whole(&life.lines).as_bytes()).expect("a good opening");
    for period in 1..=240 {
        let days_before = life.random.between(1, 24) as u32;
        life.advance(25 * period - days_before);
        for _ in 0..3 {
            life.transfer();
        }
        life.advance(25 * period);
        if period % 26 == 13 {
            life.rate(period);
        }
        life.settle(period);
        if period % 26 == 0 {
            life.rate(period);
        }
    }
    whole(life.lines).into_bytes()
}

struct Life {
    book: Book,
    lines: String,
    random: Random,
}

impl Life {
    fn advance(&mut self, number: u32) {
        self.book.advance(day(number)).expect("the next day");
        self.lines += &advance(day(number));
    }

    /// Any holder's parts to any other.
    fn transfer(&mut self) {
        let positions = self.book.positions().expect("an open book");
        let cedents: Vec<_> = positions
            .iter()
            .filter(|position| position.share > Parts(0))
            .collect();
        let cedent = self.random.pick(&cedents);
        let assignee = match self.random.between(1, 63) as u32 {
            holder if holder < cedent.holder => holder,
            holder => holder + 1,
        };
        let (cedent, share) = (cedent.holder, cedent.share.0);
        let parts = if self.random.one_in(8) {
            share
        } else {
            self.random.between(1, share)
        };
        self.book
            .transfer(cedent, assignee, Parts(parts))
            .expect("another holder");
        self.lines += &transfer(cedent, assignee, parts);
    }

    /// Every 13 periods the rate of these; now and then a year before is
    /// corrected with it, so that no more than 16 are stored.
    fn rate(&mut self, period: u32) {
        let year = period / 13;
        let first = if year.is_multiple_of(6) {
            year - 2
        } else {
            year - 1
        };
        let date = day(25 * 13 * first);
        let annual = self.random.between(1_500, 2_500);
        self.book.rate(date, annual).expect("a rate of the past");
        self.lines += &rate(date, annual);
    }

    /// About as much each time, and at the end all that is owed.
    fn settle(&mut self, period: u32) {
        let totals = self.book.totals().expect("an open book");
        let cents = match period {
            240 => totals.outstanding.0 + totals.due.0,
            _ => 1_600_000_000 + self.random.below(50_000_000),
        };
        self.book.settle(Cents(cents)).expect("no more than owed");
        self.lines += &settle(cents);
    }
}

#[cfg(test)]
mod tests {
    use super::*;

    #[test]
    fn as_long_as_it_should_be() {
        let file = longest();
        assert_eq!(file.len(), 65_532);
        let mut book = Book::empty();
        let loaded = load(&mut book, &file).unwrap();
        assert_eq!(loaded.count, 1_523);
        assert_eq!(book.totals().unwrap().outstanding, Cents(0));
        assert_eq!(book.positions().unwrap().len(), 64);
    }
}
