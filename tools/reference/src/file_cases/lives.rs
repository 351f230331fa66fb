//! Lives of a book, month after month, each month a file.

use super::*;
use crate::lists::{self, Temper};
use crate::random::Random;

pub fn cases(cases: &mut Cases) {
    months(cases);
    at_random(cases);
    longest_file(cases);
}

/// Ten months. Before each of them comes an empty or spoilt file, which leaves
/// the book as it is; after some of them the file comes again.
fn months(cases: &mut Cases) {
    let mut opening = open(20140101, 5_479, 2_000, 354_054_743_000);
    for (holder, share) in [
        (1, 350_100),
        (2, 60_800),
        (3, 441_600),
        (4, 10_000),
        (5, 137_500),
    ] {
        opening += &finance(holder, share);
    }
    cases.fresh(ACCEPTED, whole(opening));
    for month in 1..=10_u32 {
        let first = 20140001 + month * 100;
        let mut orders = advance(first + 14);
        orders += &transfer(1 + month % 5, 5 + month, 100 * u64::from(month));
        orders += &advance(first + 100);
        orders += &settle(2_000_000_000 + 1_234_567 * u64::from(month));
        if month % 6 == 2 {
            orders += &rate(first, 2_000 + u64::from(month));
        }

        let file = whole(&orders);
        let last = line_feeds(&file);
        match month % 9 {
            1 => cases.load((20, 1), ""),
            2 => cases.load((21, last), &file[..file.len() - 1]),
            3 => cases.load((22, last), &orders),
            4 => cases.load((22, last), orders + &end(last)),
            5 => cases.load((22, last + 1), file.clone() + "\n"),
            6 => cases.load((21, 4), file.replace('S', "s")),
            7 => cases.load((13, last), whole(orders + &settle(0))),
            8 => cases.load((8, last), whole(orders + &rate(20131231, 0))),
            _ => cases.load((21, 1), file.replace('\n', "\r\n")),
        }
        cases.load(ACCEPTED, &file);
        if month % 4 == 0 {
            cases.load((8, 1), &file);
        }
    }
    cases.load(ACCEPTED, end(0));
}

/// The calls of random lists, some accepted ones to a file. A refused call comes
/// behind those that wait, which then come again without it.
fn at_random(cases: &mut Cases) {
    for (number, temper, length) in [
        (0, Temper::Mixed, 20),
        (1, Temper::Revised, 24),
        (2, Temper::Crowded, 15),
    ] {
        let mut random = Random::seeded(22, number);
        let calls = lists::list(&mut random, temper, length);
        let mut by_calls = Book::empty();
        let mut waiting = String::new();
        cases.empty();
        for call in calls {
            let Some(lines) = lines_of(&call) else {
                continue;
            };
            match call.run(&mut by_calls) {
                Ok(_) => waiting += &lines,
                Err(refusal) => {
                    let line = line_feeds(&waiting) + 1;
                    cases.load((refusal.number(), line), whole(waiting.clone() + &lines));
                }
            }
            if random.one_in(7) {
                cases.load(ACCEPTED, whole(std::mem::take(&mut waiting)));
            }
        }
        cases.load(ACCEPTED, whole(waiting));
        assert_eq!(cases.book, by_calls);
    }
}

/// And a little file on the full book that it leaves.
fn longest_file(cases: &mut Cases) {
    cases.fresh(ACCEPTED, longest());
    cases.load((12, 1), whole(settle(0)));
}
