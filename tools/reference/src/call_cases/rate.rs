//! The calls of the vectors that are about Rate.
//!
//! 100,000,000 cents bear 2.74 cents a day at the annual rate 1, 5,425.52 at
//! 2,000 and 10,745.98 at 4,000.

use super::*;

pub fn cases(cases: &mut Cases) {
    refused(cases);
    first_and_last_days(cases);
    without_settlements(cases);
    only_the_fraction(cases);
    with_settlements(cases);
    on_a_settlements_day(cases);
    among_transfers(cases);
    stored(cases);
    stored_with_gaps(cases);
    stored_and_overpaid(cases);
    overpaid(cases);
    overpaid_today(cases);
    overpaid_by_one_of_several(cases);
    exactly_not_over(cases);
    owed_again(cases);
    highest_changes(cases);
    to_the_nearest_unit(cases);
}

/// 3, 6 and 8, and which of them comes first.
fn refused(cases: &mut Cases) {
    cases.start(good());
    cases.advance(0, day(10));
    for date in [
        0,
        20140100,
        20140132,
        20140229,
        20141301,
        19991231,
        22000101,
        120140101,
        u32::MAX,
    ] {
        cases.rate(3, date, 2_000);
    }
    for annual in [
        4_001,
        65_536,
        (1 << 32) - 1,
        1 << 32,
        (1 << 32) + 2_000,
        1 << 63,
        u64::MAX,
    ] {
        cases.rate(6, day(0), annual);
        cases.rate(6, day(10), annual);
    }
    for date in [20131231, 20000101, day(11), day(365), day(366), 21991231] {
        cases.rate(8, date, 2_000);
    }
    for annual in [4_001, u64::MAX] {
        cases.rate(3, 20131200, annual);
        cases.rate(3, 20140229, annual);
        cases.rate(6, 20131231, annual);
        cases.rate(6, day(11), annual);
    }
    cases.rate(3, 20140229, 0);
    cases.rate(8, day(11), 4_000);
    cases.rate(8, 20131231, 0);
    cases.changes(day(10), 4_000, 0, 0);
    cases.changes(day(0), 4_000, 0, 53_204);
    cases.changes(day(0), 3_999, 0, -26); // 10 × 10,743.34
    cases.look_at_all();
}

/// Day 0 and the day before it, the term's end, and days around them.
fn first_and_last_days(cases: &mut Cases) {
    cases.start(Opening { term: 92, ..good() });
    cases.rate(8, 20131231, 0);
    cases.rate(8, day(1), 0);
    for annual in [0, 4_000, 2_000, 2_000, 1] {
        cases.changes(day(0), annual, 0, 0);
    }
    cases.advance(0, day(1));
    cases.totals(0);
    cases.rate(8, 20131231, 0);
    cases.rate(8, day(2), 0);
    cases.changes(day(1), 4_000, 0, 0);
    cases.changes(day(0), 2_000, 0, 5_423);
    cases.changes(day(1), 4_000, 0, 0);

    // No rate lets time go on, nor the last day end.
    cases.advance(0, day(92));
    cases.look();
    cases.rate(8, day(93), 0);
    cases.changes(day(92), 0, 0, 0);
    cases.advance(8, day(93));
    cases.changes(day(91), 0, 0, -10_746); // 983,309.7 before, 972,563.72 after
    cases.settle(0, 1_000);
    cases.changes(day(92), 4_000, 0, 0);
    cases.look_at_all();
    cases.start(Opening { term: 93, ..good() });
    cases.advance(0, day(92));
    cases.changes(day(0), 2_000, 0, 0);
    cases.changes(day(92), 1, 0, 0);
    cases.advance(9, day(93));
    cases.settle(0, 0);
    cases.advance(0, day(93));
    cases.totals(0);

    for (first_day, before, number) in [
        (20000101, 19991231, 3),
        (20000301, 20000229, 8),
        (20240229, 20240228, 8),
        (20991231, 20991230, 8),
    ] {
        cases.start(Opening {
            first_day,
            ..good()
        });
        for days in [1, 60] {
            cases.rate(number, before, 2_000);
            cases.advance(0, days_after(first_day, days));
            cases.rate(8, days_after(first_day, days + 1), 2_000);
            cases.rate(0, days_after(first_day, days - 1), 1_000 + u64::from(days));
        }
        cases.rate(3, 21000229, 0);
        cases.rate(0, first_day, 4_000);
        cases.rate(0, days_after(first_day, 59), 0);
    }
}

/// Only interest due changes.
fn without_settlements(cases: &mut Cases) {
    cases.start(good());
    cases.advance(0, day(10)); // 54,255.2 due
    cases.changes(day(10), 2_000, 0, 0);
    cases.changes(day(10), 0, 0, 0);
    cases.changes(day(4), 2_000, 0, 0);
    cases.changes(day(0), 2_000, 0, 0);
    cases.changes(day(0), 4_000, 0, 53_204); // 107,459.8
    cases.changes(day(0), 0, 0, -107_459);
    cases.changes(day(5), 2_000, 0, 27_127); // 27,127.6
    cases.changes(day(9), 4_000, 0, 5_321); // 32,448.06
    cases.changes(day(9), 2_000, 0, -5_321);
    cases.changes(day(10), 1, 0, 0);
    cases.changes(day(1), 1, 0, -27_103); // 24.66, and no other rate from day 1
    cases.advance(0, day(20));
    cases.totals(0); // 52.06
    cases.changes(day(0), 1, 0, 2); // 54.8
    cases.changes(day(15), 0, 0, -13); // 41.1
    cases.changes(day(15), 1, 0, 13);
    cases.changes(day(16), 0, 0, -11); // 43.84

    // From today on several days.
    for (number, annual) in [(21, 4_000), (22, 1), (23, 1), (25, 2_000), (30, 0)] {
        cases.advance(0, day(number));
        cases.totals(0);
        cases.changes(day(number), annual, 0, 0);
    }
    cases.advance(0, day(31));
    // 16 days at 1, 5 at 0, one at 4,000, three at 1, five at 2,000, one at 0:
    // 37,925.64.
    cases.totals(0);
    cases.changes(day(30), 2_000, 0, 5_426); // 43,351.16
    cases.changes(day(25), 0, 0, -32_553); // 10,798.04
    cases.changes(day(21), 0, 0, -10_755); // 43.84
    cases.look_at_all();
}

/// Amounts so small that no cent, or hardly one, becomes due.
fn only_the_fraction(cases: &mut Cases) {
    for cents in [1, 100, 9_305, 18_431] {
        cases.start(Opening { cents, ..good() });
        cases.advance(0, day(1));
        for annual in [4_000, 0, 2_000, 1] {
            cases.rate(0, day(0), annual);
        }
        cases.advance(0, day(2));
        cases.rate(0, day(1), 4_000);
        cases.rate(0, day(0), 4_000);
        cases.settle(0, 1);
        cases.rate(0, day(1), 0);
    }
}

/// The settlements stay, and pay other parts of interest and principal.
fn with_settlements(cases: &mut Cases) {
    // Both signs of both changes.
    cases.start(Opening {
        annual: 4_000,
        ..good()
    });
    cases.advance(0, day(10)); // 107,459.8 due
    cases.settle(0, 1_000_000);
    cases.changes(day(10), 0, 0, 0);
    cases.advance(0, day(20));
    cases.changes(day(0), 2_000, -53_204, 53_742);
    cases.changes(day(10), 4_000, 0, 106_443 - 53_742);
    cases.changes(day(0), 3_000, 26_731, 80_242 - 106_443);
    cases.changes(day(0), 4_000, 26_473, 106_501 - 80_242);
    cases.changes(day(0), 2_000, -53_204, 53_742 - 106_501);
    cases.look_at_all();

    // Less than due, which becomes more than due.
    cases.start(good());
    cases.advance(0, day(10));
    cases.settle(0, 30_000);
    cases.changes(day(0), 4_000, 0, 53_204);
    cases.changes(day(0), 1, -29_973, -77_459);
    cases.changes(day(0), 0, -27, 0);
    cases.changes(day(9), 4_000, 10_745, 0);
    cases.changes(day(0), 2_000, 19_255, 24_255);
    cases.look_at_all();

    // Up and down over several settlements, one of them of 0 cents.
    cases.start(Opening {
        first_day: 20231231,
        term: 800,
        cents: 98_765_432_109,
        ..good()
    });
    for (date, cents) in [
        (20240131, 1_000_000_000),
        (20240229, 0),
        (20240331, 5_000_000_000),
        (20240430, 1),
        (20240715, 777_777_777),
    ] {
        cases.advance(0, date);
        cases.settle(0, cents);
    }
    cases.advance(0, 20240801);
    for (date, annual) in [
        (20240801, 3_000),
        (20231231, 0),
        (20231231, 4_000),
        (20240131, 1_234),
        (20240228, 2_345),
        (20240229, 2_346),
        (20240301, 2_347),
        (20240330, 1_000),
        (20240716, 3_999),
        (20240714, 3_999),
        (20240730, 1),
        (20240229, 2_346),
        (20231231, 2_000),
    ] {
        cases.rate(0, date, annual);
    }
    cases.look_at_all();
    // Paid today, before the order and after it.
    cases.rate(0, 20240401, 500);
    let due = cases.due();
    cases.settle(0, due + 1);
    cases.rate(0, 20240401, 499);
    cases.rate(0, 20240401, 501);
    cases.rate(0, 20240801, 4_000);
    cases.advance(0, 20240802);
    cases.look_at_all();
}

/// A settlement precedes the interest of its day, so that a rate from its day
/// leaves it as it was, and one from the day before doesn't.
fn on_a_settlements_day(cases: &mut Cases) {
    cases.start(good());
    cases.advance(0, day(5));
    cases.settle(0, 1_027_127); // 27,127.6 due
    cases.advance(0, day(6)); // 99,000,000 cents bear 5,371.2648 at 2,000
    cases.changes(day(5), 0, 0, -5_371);
    cases.changes(day(6), 4_000, 0, 0);
    cases.changes(day(4), 0, -5_425, 0); // 21,702.08 due
    cases.changes(day(4), 2_000, 5_425, 5_371);
    cases.look_at_all();

    // Before the settlement of the same day or after it.
    for rate_first in [true, false] {
        cases.start(good());
        cases.advance(0, day(5));
        if rate_first {
            cases.changes(day(4), 4_000, 0, 5_321); // 32,448.06
            cases.changes(day(5), 1, 0, 0);
            cases.settle(0, 32_448 + 50);
        } else {
            cases.settle(0, 32_448 + 50); // 27,127 interest, 5,371 principal
            cases.changes(day(4), 4_000, 5_321, 0);
            cases.changes(day(5), 1, 0, 0);
        }
        cases.settle(13, 0);
        cases.look_at_all();
        cases.advance(0, day(9));
        cases.look_at_all();
    }
}

/// No rate changes a position.
fn among_transfers(cases: &mut Cases) {
    cases.start(good());
    cases.transfer(0, 1, 3, 200_000);
    cases.changes(day(0), 4_000, 0, 0);
    cases.transfer(0, 3, 4, 1);
    cases.advance(0, day(10));
    cases.changes(day(3), 2_000, 0, -37_243); // 70,216.58
    cases.look_at_all();
    cases.transfer(0, 1, 2, 400_000);
    cases.changes(day(10), 0, 0, 0);
    cases.transfer(11, 1, 2, 1);
    cases.advance(0, day(20));
    cases.changes(day(10), 2_000, 0, 54_255); // 124,471.78
    cases.look_at_all();
    cases.settle(0, 200_001);
    cases.changes(day(0), 0, -124_471, 0);
    cases.look_at_all();
    cases.transfer(0, 2, 5, 799_999);
    cases.rate(0, day(20), 4_000);
    cases.advance(0, day(25));
    cases.rate(0, day(19), 3_333);
    cases.transfer(0, 5, 1, 99_999);
    cases.rate(0, day(20), 2_222);
    cases.settle(0, 33_333);
    cases.rate(0, day(0), 1_111);
    cases.look_at_all();

    // 64 positions.
    cases.start(financed(&holders(64), &[15_625; 64]));
    cases.advance(0, day(2));
    cases.settle(0, 6_401);
    cases.transfer(0, 1, 64, 15_625);
    cases.advance(0, day(3));
    cases.rate(0, day(0), 0);
    cases.rate(0, day(1), 4_000);
    cases.transfer(12, 2, 65, 1);
    for place in [0, 1, 62, 63] {
        cases.place(0, place);
    }
}

/// With 15 and with 16 stored rates before the order's date. There are never 17.
fn stored(cases: &mut Cases) {
    cases.start(good());
    cases.advance(0, day(40));
    // One date again and again takes one place.
    for number in 0..17 {
        cases.rate(0, day(0), 2_000 + number % 2);
    }
    for number in 0..3 {
        cases.rate(0, day(40), 3_000 + number % 2);
    }
    for number in 1..15 {
        cases.rate(0, day(number), 2_000 + u64::from(number));
    }
    // 15 before day 40, and 16 with the one from it.
    for annual in [2_500, 2_501, 2_501] {
        cases.rate(0, day(40), annual);
    }
    for annual in [2_500, 0] {
        cases.rate(0, day(15), annual);
    }
    for date in [16, 17, 39, 40] {
        cases.rate(12, day(date), 2_000);
    }
    cases.rate(12, day(40), 0); // the rate in force
    cases.rate(12, day(16), 4_000);
    // Still full on later days.
    cases.advance(0, day(50));
    cases.rate(12, day(50), 1);
    cases.rate(12, day(16), 1);

    // The lower number first.
    for (number, date, annual) in [
        (3, 20140229, 4_001),
        (3, 20140229, 2_000),
        (6, day(51), 4_001),
        (6, day(50), 4_001),
        (6, 20131231, 1 << 32),
        (8, day(51), 4_000),
        (8, 20131231, 4_000),
    ] {
        cases.rate(number, date, annual);
    }

    // The last replaced, then the last two: room for one more.
    cases.rate(0, day(15), 1_000);
    cases.rate(12, day(16), 1_001);
    cases.rate(0, day(14), 1_002);
    cases.rate(0, day(50), 1_003);
    cases.rate(0, day(49), 1_004);
    cases.rate(12, day(50), 1_005);
    cases.settle(0, 123_456);
    cases.advance(0, day(51));
    cases.rate(12, day(51), 1_006);
    // An early one leaves three.
    cases.rate(0, day(2), 1_007);
    for number in 3..=15 {
        cases.rate(0, day(number * 3), 100 * u64::from(number));
    }
    cases.rate(12, day(46), 0);
    cases.rate(12, day(51), 0);
    cases.rate(0, day(45), 1_500);
    // And one from day 0 all of them.
    cases.rate(0, day(0), 2_000);
    for number in 1..=15 {
        cases.rate(0, day(36 + number), 2_000);
    }
    cases.advance(0, day(52));
    cases.rate(12, day(52), 2_000);
    cases.look_at_all();
}

/// 16 rates, each from its today, some days apart.
fn stored_with_gaps(cases: &mut Cases) {
    cases.start(good());
    for number in 1..16 {
        cases.advance(0, day(number * 5));
        cases.rate(0, day(number * 5), u64::from(number) * 250);
        if number % 4 == 0 {
            cases.settle(0, 10_000 * u64::from(number));
        }
    }
    cases.advance(0, day(80));
    cases.rate(12, day(80), 0);
    cases.rate(12, day(76), 0);
    cases.rate(0, day(75), 0); // in the last one's place
    cases.rate(12, day(76), 0);
    cases.rate(0, day(74), 0); // before it
    cases.rate(12, day(75), 0);
    cases.rate(0, day(71), 4_000);
    cases.rate(0, day(70), 4_000);
    cases.rate(0, day(80), 4_000);
    cases.rate(0, day(69), 4_000);
    cases.rate(0, day(79), 1);
    cases.rate(12, day(80), 1);
    cases.rate(0, day(1), 1);
    cases.look_at_all();
}

/// 12 comes before 14.
fn stored_and_overpaid(cases: &mut Cases) {
    cases.start(good());
    cases.advance(0, day(20));
    for number in 1..=14 {
        cases.rate(0, day(number), 2_000);
    }
    let owed = cases.owed();
    cases.settle(0, owed);
    cases.rate(14, day(16), 0);
    cases.changes(day(15), 2_000, 0, 0);
    cases.rate(12, day(16), 0);
    cases.rate(12, day(20), 0);
    cases.rate(12, day(16), 4_000);
    cases.rate(14, day(15), 0);
    cases.rate(14, day(0), 0);
    cases.rate(8, day(21), 0);
    cases.rate(8, 20131231, 0);
    cases.rate(6, day(16), 4_001);
    cases.rate(3, 20140132, 0);
    // Refused for that, it has erased nothing.
    cases.rate(12, day(16), 2_000);
    cases.changes(day(14), 2_000, 0, 0);
    cases.rate(14, day(19), 0);
    cases.changes(day(20), 0, 0, 0);
    cases.advance(0, day(21));
    cases.rate(12, day(21), 0);
    cases.look_at_all();
}

/// A settlement of the past that would have been too much.
fn overpaid(cases: &mut Cases) {
    cases.start(good());
    cases.advance(0, day(10));
    cases.settle(0, 100_054_255);
    cases.advance(0, day(15));
    for (date, annual) in [
        (day(0), 0),
        (day(0), 1),
        (day(0), 1_999),
        (day(1), 1_999),
        (day(5), 0),
        (day(9), 1_999),
        (day(9), 0),
    ] {
        cases.rate(14, date, annual);
    }
    // From its own day on nothing is owed that a rate could change.
    for number in [10, 11, 14, 15] {
        cases.changes(day(number), 0, 0, 0);
        cases.changes(day(number), 4_000, 0, 0);
    }
    cases.rate(14, day(9), 1_000);
    cases.changes(day(0), 2_000, 0, 0);
    cases.changes(day(9), 2_001, 2, 0); // 5,428.21 instead of 5,425.52
    cases.rate(0, day(0), 2_001);
    cases.rate(0, day(0), 2_000);
    cases.rate(14, day(0), 1_999);
    cases.look_at_all();

    // An order that raises the rate of some days and lowers that of others.
    cases.start(Opening {
        annual: 0,
        ..good()
    });
    cases.advance(0, day(10));
    cases.changes(day(5), 4_000, 0, 53_729); // 53,729.9
    cases.settle(0, 100_053_729);
    cases.advance(0, day(12));
    cases.rate(14, day(2), 2_000); // 43,404.16
    cases.rate(14, day(1), 2_000); // 48,829.68
    cases.changes(day(0), 2_000, 526, 0); // 54,255.2
    cases.rate(14, day(1), 0);
    cases.changes(day(5), 4_000, 26_602, 6); // 80,857.5
    cases.look_at_all();
}

/// A settlement made today counts too.
fn overpaid_today(cases: &mut Cases) {
    for zeros in [0, 1] {
        cases.start(good());
        if zeros > 0 {
            cases.advance(0, day(4));
            cases.settle(0, 0);
        }
        cases.advance(0, day(10));
        cases.settle(0, 100_054_255);
        cases.rate(14, day(0), 0);
        cases.rate(14, day(4), 1_999);
        cases.rate(14, day(9), 0);
        cases.rate(14, day(9), 1_999);
        cases.changes(day(9), 2_000, 0, 0);
        cases.changes(day(10), 0, 0, 0);
        cases.changes(day(9), 4_000, 5_320, 0); // 59,575.66
        cases.look_at_all();
    }
}

/// One too much among others that are not.
fn overpaid_by_one_of_several(cases: &mut Cases) {
    // The first, then some of 0 cents.
    cases.start(good());
    cases.advance(0, day(10));
    cases.settle(0, 100_054_255);
    for number in [20, 30, 40] {
        cases.advance(0, day(number));
        cases.settle(0, 0);
    }
    cases.rate(14, day(0), 1_999);
    cases.rate(14, day(9), 0);
    cases.changes(day(10), 0, 0, 0);
    cases.look_at_all();

    // The middle one; then, with principal owed again after it, the last.
    cases.start(good());
    cases.advance(0, day(5));
    cases.settle(0, 1_027_127); // leaves 99,000,000 and 0.6 due
    cases.advance(0, day(10)); // 5 × 5,371.2648
    cases.settle(0, 99_026_856);
    cases.rate(14, day(9), 0);
    cases.rate(14, day(4), 0);
    cases.rate(0, day(5), 4_000);
    cases.advance(0, day(20));
    cases.settle(0, 20_000);
    cases.rate(14, day(9), 0);
    cases.rate(14, day(0), 2_000);
    cases.look_at_all();

    // The last of many.
    cases.start(good());
    for number in [10, 20, 30] {
        cases.advance(0, day(number));
        cases.settle(0, 10_000_000);
    }
    cases.advance(0, day(40));
    let owed = cases.owed();
    cases.settle(0, owed);
    cases.advance(0, day(50));
    for number in [0, 10, 20, 30, 39] {
        cases.rate(14, day(number), 1_999);
    }
    cases.changes(day(40), 0, 0, 0);
    cases.look_at_all();
}

/// Just what would have been owed, and a cent more.
fn exactly_not_over(cases: &mut Cases) {
    for days_later in [0, 3] {
        for more in [0, 1] {
            cases.start(good());
            cases.advance(0, day(10));
            cases.settle(0, 100_000_000 + more);
            if days_later > 0 {
                cases.advance(0, day(10 + days_later));
            }
            // Without interest the recognised amount is all there is.
            let (due, left) = (cases.due() as i128, 54_255 - more as i128);
            if more == 0 {
                cases.changes(day(0), 0, -left, -due);
                cases.rate(0, day(0), 1);
            } else {
                cases.rate(14, day(0), 0);
                cases.changes(day(0), 1, 26 - left, -due);
                cases.rate(14, day(0), 0);
                cases.changes(day(1), 0, -25, 0); // 2.74
            }
            cases.look_at_all();
        }
    }
}

/// A higher rate after all was paid.
fn owed_again(cases: &mut Cases) {
    cases.start(good());
    cases.advance(0, day(10));
    cases.settle(0, 100_054_255);
    cases.changes(day(0), 4_000, 53_204, 0); // 107,459.8
    cases.settle(13, 53_204);
    cases.advance(0, day(30));
    cases.totals(0);
    let owed = cases.owed();
    cases.settle(14, owed + 1);
    cases.settle(0, owed);
    cases.rate(14, day(0), 3_999);
    cases.rate(14, day(29), 0);
    cases.changes(day(30), 0, 0, 0);
    cases.advance(0, day(31));
    cases.settle(14, 1);
    cases.settle(0, 0);
    cases.look_at_all();
}

/// The greatest principal and rate over the longest term. 10^12 cents bear
/// 107,459,800 a day at 4,000.
fn highest_changes(cases: &mut Cases) {
    const A_DAY: u64 = 107_459_800;
    for settled in [92 * A_DAY, 0] {
        cases.start(Opening {
            term: 6_000,
            cents: MOST_RECOGNISED,
            annual: 4_000,
            ..good()
        });
        for number in 1..=65 {
            cases.advance(0, day(92 * number));
            cases.settle(0, settled);
        }
        cases.advance(0, day(6_000));
        cases.look_at_all();
        let paid = 65 * settled as i128;
        let due = 6_000 * A_DAY as i128 - paid;
        for _ in 0..2 {
            cases.changes(day(0), 0, -paid, -due);
            cases.changes(day(0), 4_000, paid, due);
        }
        cases.changes(day(5_999), 0, 0, -(A_DAY as i128));
        cases.rate(0, day(3_000), 2_000);
        cases.rate(0, day(0), 2_000);
        cases.look_at_all();
    }
}

/// What daily rates to the nearest unit decide (document 02, Req 02). Rounded down
/// they would be 273 at 1, 902,545 at 3,349 and 1,074,597 at 4,000, and the answers
/// with them would be others.
fn to_the_nearest_unit(cases: &mut Cases) {
    // A day's interest on 10^10 cents is the daily rate. 904 and 3,349 come nearest
    // to the middle of two units, from below and from above.
    cases.start(Opening {
        cents: 10_000_000_000,
        ..good()
    });
    cases.advance(0, day(1));
    let mut before = 542_552;
    for (annual, daily) in [
        (1, 274),
        (904, 246_561),
        (3_349, 902_546),
        (3_999, 1_074_334),
        (4_000, 1_074_598),
    ] {
        cases.changes(day(0), annual, 0, daily - before);
        before = daily;
    }

    // The least amount that bears a cent in a day at 1, and a cent less:
    // 36,496,351 × 274 is 10,000,000,174. All that is owed, and a cent more.
    for (cents, due) in [(36_496_350, 0), (36_496_351, 1)] {
        cases.start(Opening {
            cents,
            annual: 1,
            ..good()
        });
        cases.advance(0, day(1));
        cases.settle(14, cents + due + 1);
        cases.settle(0, cents + due);
        cases.totals(0);
    }

    // The same payments after a day at 4,000, which has 3,921 cents of interest. Then
    // the day gets the rate 1.
    for more in [0, 1] {
        cases.start(Opening {
            cents: 36_496_351,
            annual: 4_000,
            ..good()
        });
        cases.advance(0, day(1));
        cases.settle(0, 36_496_352 + more);
        if more == 0 {
            cases.changes(day(0), 1, -3_920, 0);
        } else {
            cases.rate(14, day(0), 1);
        }
    }

    // 50 days are 271,276 cents at 2,000 and 537,299 at 4,000, without a fraction.
    cases.start(good());
    cases.advance(0, day(50));
    cases.changes(day(0), 4_000, 0, 266_023);
    cases.settle(14, 100_537_300);
    cases.settle(0, 100_537_299);
    cases.changes(day(0), 4_000, 0, 0);
    cases.rate(14, day(49), 3_999); // 10,743.34 instead of 10,745.98
    cases.look_at_all();
}
