//! Random lists of calls: openings, then advances, transfers, settlements and
//! rates, refused ones among them, with values near the edges often. The author
//! of a list runs a book of his own to know where the edges are.

use std::collections::BTreeSet;

use crate::book::{Book, Position, Totals};
use crate::calendar::{Calendar, FIRST};
use crate::calls::{Call, Opening};
use crate::random::Random;

#[derive(Clone, Copy, Debug, PartialEq, Eq)]
pub enum Temper {
    /// A bit of everything.
    Mixed,
    /// About as many positions as a book holds, and many transfers.
    Crowded,
    /// Many rates.
    Revised,
    /// A long life with a settlement a month.
    Monthly,
    /// A settlement a day, up to the last that a book holds.
    Daily,
}

/// A list for the comparison of book and tally.
pub fn any(random: &mut Random) -> Vec<Call> {
    let temper = match random.below(100) {
        0..=1 => Temper::Daily,
        2..=4 => Temper::Monthly,
        5..=24 => Temper::Crowded,
        25..=49 => Temper::Revised,
        _ => Temper::Mixed,
    };
    let length = match temper {
        Temper::Mixed => random.between(5, 60),
        Temper::Crowded => random.between(10, 60),
        Temper::Revised => random.between(30, 120),
        Temper::Monthly => random.between(300, 480),
        Temper::Daily => random.between(540, 640),
    };
    list(random, temper, length)
}

/// A list of so many calls after the opening.
pub fn list(random: &mut Random, temper: Temper, length: u64) -> Vec<Call> {
    let mut author = Author {
        temper,
        rates_from_today: random.one_in(2),
        random,
        book: Book::empty(),
        opening: None,
        last_settlement: 0,
        last_rate: 0,
    };
    let mut calls = Vec::new();
    while author.opening.is_none() {
        calls.push(author.next_call());
    }
    calls.extend((0..length).map(|_| author.next_call()));
    calls
}

struct Author<'a> {
    random: &'a mut Random,
    temper: Temper,
    rates_from_today: bool,
    book: Book,
    /// The accepted one.
    opening: Option<Opening>,
    /// Its day, or day 0.
    last_settlement: i64,
    /// The day on which it was given, or day 0.
    last_rate: i64,
}

impl Author<'_> {
    fn next_call(&mut self) -> Call {
        let call = match &self.opening {
            None => self.call_on_empty_book(),
            Some(opening) => {
                let scene = Scene::new(opening, &self.book);
                self.call_on(&scene)
            }
        };
        if call.run(&mut self.book).is_ok() {
            if let Call::Open(opening) = &call {
                self.opening = Some(opening.clone());
            }
            if let Some(opening) = &self.opening {
                let today = Scene::new(opening, &self.book).today;
                match call {
                    Call::Settle { .. } => self.last_settlement = today,
                    Call::Rate { .. } => self.last_rate = today,
                    _ => {}
                }
            }
        }
        call
    }

    fn call_on_empty_book(&mut self) -> Call {
        match self.random.below(12) {
            0 => Call::Advance { date: 20140102 },
            1 => Call::Transfer {
                cedent: 1,
                assignee: 2,
                parts: self.random.below(2),
            },
            2 => Call::Settle {
                cents: self.random.pick(&[0, 1, u64::MAX]),
            },
            3 => Call::Rate {
                date: 20140101,
                annual: 0,
            },
            4 => Call::Open(self.bad_opening()),
            _ => Call::Open(self.good_opening()),
        }
    }

    fn call_on(&mut self, scene: &Scene) -> Call {
        let paced = matches!(self.temper, Temper::Monthly | Temper::Daily);
        if paced && !self.random.one_in(5) {
            return if scene.today > self.last_settlement {
                let cents = self.sensible_cents(scene);
                Call::Settle { cents }
            } else {
                let days = match self.temper {
                    Temper::Daily => 1,
                    _ => self.random.between(28, 31) as i64,
                };
                Call::Advance {
                    date: scene.date(scene.today + days),
                }
            };
        }
        let paced = self.temper == Temper::Revised && self.rates_from_today;
        if paced && self.random.one_in(2) {
            return if scene.today > self.last_rate {
                self.rate(scene)
            } else {
                let days = self.random.between(1, 3) as i64;
                Call::Advance {
                    date: scene.date(scene.today + days),
                }
            };
        }
        // How often: Advance, Transfer, Settle, Rate, Open, a reader.
        let weights = match self.temper {
            Temper::Crowded => [22, 50, 15, 7, 2, 4],
            Temper::Revised => [30, 8, 12, 44, 2, 4],
            _ => [34, 22, 20, 16, 2, 6],
        };
        let mut left = self.random.below(weights.iter().sum());
        let kind = weights.iter().position(|&weight| {
            let here = left < weight;
            left = left.saturating_sub(weight);
            here
        });
        match kind {
            Some(1) => self.transfer(scene),
            Some(2) => self.settle(scene),
            Some(3) => self.rate(scene),
            Some(4) if self.random.one_in(2) => Call::Open(self.good_opening()),
            Some(4) => Call::Open(self.bad_opening()),
            Some(5) => self.reader(scene),
            _ => self.advance(scene),
        }
    }

    fn advance(&mut self, scene: &Scene) -> Call {
        let today = scene.today;
        let date = match self.random.below(20) {
            0 => self.no_date(),
            1 => self.any_date(),
            2 => scene.date(today),
            3 => scene.date(today - 1),
            4 => scene.date(scene.term),
            5 => scene.date(scene.term + 1),
            6 => scene.date(self.last_settlement + 92),
            7 => scene.date(self.last_settlement + 93),
            8 => scene.date(today + 92),
            9..=12 => scene.date(today + 1),
            _ => scene.date(today + self.random.between(1, 31) as i64),
        };
        Call::Advance { date }
    }

    fn transfer(&mut self, scene: &Scene) -> Call {
        let beyond = [0, 999_999_999, 1_000_000_000, u32::MAX];
        let with_share: Vec<&Position> = scene
            .positions
            .iter()
            .filter(|position| position.share.0 > 0)
            .collect();
        let (cedent, share) = match self.random.below(12) {
            0 => (self.random.pick(&beyond), 1),
            1 => (self.any_holder(), 1),
            2..=4 => {
                let position = self.random.pick(&scene.positions);
                (position.holder, position.share.0)
            }
            _ => {
                let position = self.random.pick(&with_share);
                (position.holder, position.share.0)
            }
        };
        let assignee = match self.random.below(12) {
            0 => self.random.pick(&beyond),
            1 => cedent,
            2..=6 => self.random.pick(&scene.positions).holder,
            _ => self.any_holder(),
        };
        let parts = match self.random.below(12) {
            0 => 0,
            1 | 2 => share,
            3 => share + 1,
            4 => 1,
            5 => self
                .random
                .pick(&[1_000_000, 1_000_001, 1 << 32, (1 << 32) + 1, u64::MAX]),
            _ => self.random.between(1, share.max(1)),
        };
        Call::Transfer {
            cedent,
            assignee,
            parts,
        }
    }

    fn settle(&mut self, scene: &Scene) -> Call {
        let due = scene.totals.due.0;
        let owed = due + scene.totals.outstanding.0;
        let cents = match self.random.below(20) {
            _ if self.temper == Temper::Revised && self.random.one_in(6) => owed,
            0 | 1 => 0,
            2 => 1,
            3 => due,
            4 => due + 1,
            5 => due.saturating_sub(1),
            6 => owed,
            7 => owed + 1,
            8 => owed.saturating_sub(1),
            9 => self
                .random
                .pick(&[100_000_000_000, 100_000_000_001, 1 << 63, u64::MAX]),
            10 => self.random.of_any_size(100_000_000_000),
            _ => self.sensible_cents(scene),
        };
        Call::Settle { cents }
    }

    /// Now and then nothing, mostly interest and a little principal.
    fn sensible_cents(&mut self, scene: &Scene) -> u64 {
        let due = scene.totals.due.0;
        let outstanding = scene.totals.outstanding.0;
        match self.random.below(8) {
            0 => self.random.below(due + 1),
            1 => self.random.of_any_size(due + outstanding / 50),
            _ => due + self.random.below(outstanding / 90 + 1),
        }
    }

    fn rate(&mut self, scene: &Scene) -> Call {
        let today = scene.today;
        let date = match self.random.below(14) {
            _ if self.rates_from_today && !self.random.one_in(30) => scene.date(today),
            0 => self.no_date(),
            1 => scene.date(today + 1),
            2 => scene.date(-1),
            3 => scene.date(0),
            4 | 5 => scene.date(today),
            6 => scene.date(self.last_settlement),
            7 => scene.date(self.last_settlement - 1),
            8 => scene.date(self.last_settlement + 1),
            9 => scene.date(today - 1),
            _ => scene.date(self.random.between(0, today as u64) as i64),
        };
        let annual = match self.random.below(10) {
            0 => 0,
            1 => 4_000,
            2 => 4_001,
            3 => self
                .random
                .pick(&[1, 3_999, 1 << 32, (1 << 32) + 2_000, u64::MAX]),
            _ => self.random.below(4_001),
        };
        Call::Rate { date, annual }
    }

    fn reader(&mut self, scene: &Scene) -> Call {
        match self.random.below(6) {
            0 => Call::Totals,
            1 => Call::Position {
                holder: self.any_holder(),
            },
            2 => Call::Position {
                holder: self.random.pick(&[0, 1_000_000_000, u32::MAX]),
            },
            3 => Call::PositionAt {
                place: self.random.below(66),
            },
            _ => Call::Position {
                holder: self.random.pick(&scene.positions).holder,
            },
        }
    }

    fn good_opening(&mut self) -> Opening {
        let first_day = match self.random.below(3) {
            0 => self
                .random
                .pick(&[20000101, 20000228, 20140101, 20230301, 20240229, 20991231]),
            _ => {
                let days = self.random.below(36_525) as u32; // up to 20991231
                Calendar::gregorian()
                    .plus_days(FIRST, days)
                    .expect("a date")
            }
        };
        let term = match (self.temper, self.random.below(4)) {
            (Temper::Monthly | Temper::Daily, _) => self.random.pick(&[5_479, 6_000]),
            (_, 0) => self.random.between(1, 6_000) as u32,
            (_, 1) => self.random.pick(&[1, 2, 31, 92, 93]),
            _ => self.random.pick(&[365, 1_826, 5_479, 5_999, 6_000]),
        };
        let annual = match self.random.below(3) {
            0 => self.random.pick(&[0, 1, 2_000, 3_999, 4_000]),
            _ => self.random.below(4_001),
        };
        let cents = match self.random.below(4) {
            0 => self
                .random
                .pick(&[1, 2, 100, 18_431, 1_000_000_000, 999_999_999_999]),
            1 => 1_000_000_000_000,
            _ => 1 + self.random.of_any_size(999_999_999_999),
        };
        let count = match self.random.below(8) {
            _ if self.temper == Temper::Crowded => self.random.between(56, 64),
            0 => self.random.between(1, 64),
            1 => 64,
            _ => self.random.between(1, 6),
        };
        Opening {
            first_day,
            term,
            annual,
            cents,
            holders: self.different_holders(count),
            shares: self.shares_of_the_whole(count),
        }
    }

    fn bad_opening(&mut self) -> Opening {
        let mut opening = self.good_opening();
        for _ in 0..self.random.between(1, 3) {
            match self.random.below(12) {
                0 => opening.first_day = self.no_date(),
                1 => opening.first_day = self.random.pick(&[21000101, 21991231]),
                2 => opening.term = self.random.pick(&[0, 6_001, u32::MAX]),
                3 => opening.cents = self.random.pick(&[0, 1_000_000_000_001, u64::MAX]),
                4 => opening.annual = self.random.pick(&[4_001, 1 << 32, u64::MAX]),
                5 => opening.holders.push(1_000),
                6 => opening.shares.push(1),
                7 => opening.holders[0] = self.random.pick(&[0, 1_000_000_000, u32::MAX]),
                8 => opening.holders.clear(),
                9 => opening.shares.insert(0, u32::MAX),
                10 => {
                    opening
                        .holders
                        .push(opening.holders.first().copied().unwrap_or(0));
                    opening.shares.push(1);
                }
                _ => {
                    // 65 numbers; with the other faults there are at most 67.
                    let (holders, shares) = (&mut opening.holders, &mut opening.shares);
                    holders.extend(1_000 + holders.len() as u32..1_065);
                    shares.resize(shares.len().max(65), 1);
                }
            }
            if opening.holders.is_empty() {
                break;
            }
        }
        opening
    }

    fn different_holders(&mut self, count: u64) -> Vec<u32> {
        let mut holders = Vec::new();
        while (holders.len() as u64) < count {
            let holder = match self.random.below(20) {
                0 => 999_999_999,
                _ => self.any_holder(),
            };
            if !holders.contains(&holder) {
                holders.push(holder);
            }
        }
        holders
    }

    /// 1,000,000 cut into so many shares, none of them 0.
    fn shares_of_the_whole(&mut self, count: u64) -> Vec<u32> {
        if count == 64 && self.random.one_in(2) {
            return vec![15_625; 64];
        }
        let mut cuts = BTreeSet::from([1_000_000]);
        while (cuts.len() as u64) < count {
            // Some shares are small.
            let most = self.random.pick(&[999_999, 999_999, 100]);
            cuts.insert(self.random.between(1, most) as u32);
        }
        let mut last_cut = 0;
        let shares = cuts
            .into_iter()
            .map(|cut| cut - std::mem::replace(&mut last_cut, cut));
        shares.collect()
    }

    fn any_holder(&mut self) -> u32 {
        self.random.between(1, 90) as u32
    }

    fn any_date(&mut self) -> u32 {
        let days = self.random.below(73_049) as u32;
        Calendar::gregorian()
            .plus_days(FIRST, days)
            .expect("a date")
    }

    fn no_date(&mut self) -> u32 {
        self.random.pick(&[
            0,
            19991231,
            20000100,
            20140229,
            20141301,
            20240230,
            21000229,
            22000101,
            u32::MAX,
        ])
    }
}

/// What an author knows about an open book.
struct Scene {
    first_day: u32,
    term: i64,
    today: i64,
    totals: Totals,
    positions: Vec<Position>,
}

impl Scene {
    fn new(opening: &Opening, book: &Book) -> Self {
        let totals = book.totals().expect("an open book");
        let today = Calendar::gregorian().days_between(opening.first_day, totals.today);
        Scene {
            first_day: opening.first_day,
            term: opening.term.into(),
            today: today.expect("two dates"),
            totals,
            positions: book.positions().expect("an open book").to_vec(),
        }
    }

    /// The date of a day; the number before the first date if it is earlier.
    fn date(&self, day: i64) -> u32 {
        let calendar = Calendar::gregorian();
        let count = i64::from(calendar.day_count(self.first_day).expect("a date")) + day;
        match u32::try_from(count) {
            Ok(days) => calendar.plus_days(FIRST, days).expect("a date"),
            Err(_) => 19991231,
        }
    }
}

#[cfg(test)]
mod tests {
    use super::*;

    /// The vectors' lines have room for lists of 70.
    #[test]
    fn no_list_of_an_opening_is_too_long() {
        let mut longest = 0;
        for number in 0..300 {
            for call in any(&mut Random::seeded(1, number)) {
                if let Call::Open(opening) = call {
                    longest = longest.max(opening.holders.len());
                    longest = longest.max(opening.shares.len());
                }
            }
        }
        assert!((65..=67).contains(&longest), "{longest}");
    }
}
