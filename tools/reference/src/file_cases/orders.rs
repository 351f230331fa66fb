//! The refusals of the calls through a file, at both edges.

use super::*;

/// 1,000,000 in 32 bits, with 15 digits.
const WHOLE_IF_CUT: u64 = (232_830 << 32) + ALL;

pub fn cases(cases: &mut Cases) {
    unopened(cases);
    openings(cases);
    financing(cases);
    lowest_first(cases);
    advances(cases);
    rates(cases);
    transfers(cases);
    full(cases);
    settlements(cases);
}

/// 1 comes before what is wrong with the numbers.
fn unopened(cases: &mut Cases) {
    cases.empty();
    for order in [
        advance(20140102),
        advance(20140229),
        advance(5),
        rate(0, WIDEST),
        transfer(1, 2, 500_000),
        transfer(0, 0, 0),
        transfer(999_999_999, 999_999_999, WIDEST),
        settle(WIDEST),
    ] {
        cases.load((1, 1), whole(order));
    }
    cases.load((1, 1), settle(0) + &opened());
    cases.load((1, 1), settle(0) + "\n");
}

/// 3 to 6 of Open, which name the O line.
fn openings(cases: &mut Cases) {
    let f = finance(1, ALL);
    for (expected, o) in [
        (ACCEPTED, open(20000101, 30, 2_000, 100)),
        (ACCEPTED, open(20991231, 30, 2_000, 100)),
        ((3, 1), open(0, 30, 2_000, 100)),
        ((3, 1), open(5, 30, 2_000, 100)),
        ((3, 1), open(19991231, 30, 2_000, 100)),
        ((3, 1), open(20140229, 30, 2_000, 100)),
        ((3, 1), open(21000229, 30, 2_000, 100)),
        ((4, 1), open(21000101, 30, 2_000, 100)),
        ((4, 1), open(21991231, 30, 2_000, 100)),
        (ACCEPTED, open(20140101, 1, 2_000, 100)),
        (ACCEPTED, open(20140101, 6_000, 2_000, 100)),
        ((4, 1), open(20140101, 0, 2_000, 100)),
        ((4, 1), open(20140101, 6_001, 2_000, 100)),
        ((4, 1), open(20140101, 999_999_999, 2_000, 100)),
        (ACCEPTED, open(20140101, 30, 0, 100)),
        (ACCEPTED, open(20140101, 30, 4_000, 100)),
        ((6, 1), open(20140101, 30, 4_001, 100)),
        ((6, 1), open(20140101, 30, 999_999_999, 100)),
        (ACCEPTED, open(20140101, 30, 2_000, 1)),
        (ACCEPTED, open(20140101, 30, 2_000, 1 << 32)),
        (ACCEPTED, open(20140101, 30, 2_000, 1_000_000_000_000)),
        ((5, 1), open(20140101, 30, 2_000, 0)),
        ((5, 1), open(20140101, 30, 2_000, 1_000_000_000_001)),
        ((5, 1), open(20140101, 30, 2_000, WIDEST)),
    ] {
        cases.fresh(expected, whole(o + &f));
    }
}

/// 7, which names the O line too.
fn financing(cases: &mut Cases) {
    let o = open(20140101, 30, 2_000, 100);
    for (expected, f) in [
        (ACCEPTED, finance(999_999_999, ALL)),
        (ACCEPTED, finance(2, 1) + &finance(1, ALL - 1)),
        ((7, 1), finance(0, ALL)),
        ((7, 1), finance(1, 600_000) + &finance(1, 400_000)),
        (
            (7, 1),
            finance(3, 1) + &finance(1, 1) + &finance(3, ALL - 2),
        ),
        ((7, 1), finance(1, ALL - 1)),
        ((7, 1), finance(1, ALL + 1)),
        ((7, 1), finance(1, 0) + &finance(2, ALL)),
        ((7, 1), finance(1, ALL - 1) + &finance(2, 2)),
        ((7, 1), finance(1, 1 << 32) + &finance(2, ALL)),
        ((7, 1), finance(1, (1 << 32) + ALL)),
        ((7, 1), finance(1, (1 << 32) + ALL - 1) + &finance(2, 1)),
        ((7, 1), finance(1, (1 << 32) - 1) + &finance(2, ALL + 1)),
        ((7, 1), finance(1, 1 << 31) + &finance(2, (1 << 31) + ALL)),
        ((7, 1), finance(1, WHOLE_IF_CUT)),
    ] {
        cases.fresh(expected, whole(o.clone() + &f));
    }
}

/// Several refusals of an opening: the lowest.
fn lowest_first(cases: &mut Cases) {
    cases.empty();
    for (number, o) in [
        (3, open(20140132, 0, 4_001, 0)),
        (4, open(21000101, 30, 4_001, 0)),
        (4, open(20140101, 0, 4_001, WIDEST)),
        (5, open(20140101, 30, 4_001, 0)),
        (5, open(20140101, 30, 999_999_999, WIDEST)),
        (6, open(20140101, 30, 4_001, 100)),
        (7, open(20140101, 30, 4_000, 100)),
    ] {
        cases.load((number, 1), whole(o + &finance(1, WHOLE_IF_CUT)));
    }
}

fn advances(cases: &mut Cases) {
    for (expected, date) in [
        ((3, 4), 0),
        ((3, 4), 5),
        ((3, 4), 20140229),
        ((3, 4), 99999999),
        ((8, 4), 20131231),
        ((8, 4), 20140101),
        ((8, 4), 20150102),
        ((9, 4), 20140404),
        ((9, 4), 20150101),
        (ACCEPTED, 20140102),
        (ACCEPTED, 20140403),
    ] {
        cases.fresh(expected, whole(opened() + &advance(date)));
    }
    // After the 92nd day, which the last load has reached.
    cases.load((9, 1), whole(advance(20140404)));
    cases.load((8, 1), whole(advance(20140403)));
    cases.load((9, 2), whole(transfer(1, 2, 1) + &advance(20140404)));
    cases.load(
        (9, 3),
        whole(settle(0) + &advance(20140704) + &advance(20140705)),
    );
    cases.load((9, 2), whole(settle(0) + &advance(20140705)));
    cases.load(ACCEPTED, whole(settle(0) + &advance(20140704)));
    // The term's end.
    let short = open(20140101, 92, 2_000, 100) + &finance(1, ALL);
    cases.fresh((8, 3), whole(short.clone() + &advance(20140404)));
    cases.load(
        (8, 4),
        whole(short.clone() + &advance(20140403) + &advance(20140404)),
    );
    cases.load(ACCEPTED, whole(short + &advance(20140403)));
    cases.load((8, 2), whole(settle(100) + &advance(20140404)));
}

fn rates(cases: &mut Cases) {
    let tenth = opened() + &advance(day(10));
    for (expected, date, annual) in [
        ((3, 5), 5, 2_000),
        ((3, 5), 20140229, 4_001),
        ((3, 5), 99999999, 2_000),
        ((6, 5), 20140101, 4_001),
        ((6, 5), 20131231, 4_001),
        ((6, 5), 20140101, (1 << 32) + 2_000),
        ((6, 5), 20140101, (232_830 << 32) + 2_000),
        ((6, 5), 20140101, WIDEST),
        ((8, 5), 20131231, 2_000),
        ((8, 5), 20140112, 2_000),
        (ACCEPTED, 20140101, 4_000),
        (ACCEPTED, 20140111, 4_000),
    ] {
        cases.fresh(expected, whole(tenth.clone() + &rate(date, annual)));
    }
    // The paper's examples 11 and 12.
    let opening = open(20140101, 365, 2_000, 1_000_000_000) + &finance(1, ALL);
    let first = opening + &advance(day(1));
    let again = rate(20140101, 0);
    cases.fresh(
        (14, 5),
        whole(first.clone() + &settle(1_000_054_255) + &again),
    );
    cases.load(ACCEPTED, whole(first.clone() + &settle(100_000)));
    cases.load(ACCEPTED, whole(&again));
    cases.fresh(ACCEPTED, whole(first.clone() + &settle(1_000_054_255)));
    cases.load((14, 1), whole(&again));
    cases.fresh((14, 4), whole(first.clone() + &settle(1_000_054_256)));
    cases.load(ACCEPTED, whole(first + &settle(100_000) + &again));

    // 16 stored rates, and one more.
    let mut orders = open(20140101, 365, 2_000, 100_000_000) + &finance(1, ALL);
    for number in 1..=15 {
        orders += &advance(day(number));
        orders += &rate(day(number), 2_000 + u64::from(number));
    }
    let one_more = advance(day(16)) + &rate(day(16), 7);
    cases.fresh((12, 34), whole(orders.clone() + &one_more));
    cases.load(ACCEPTED, whole(orders));
    cases.load((12, 2), whole(&one_more));
    cases.load(
        (12, 3),
        whole(advance(day(16)) + &rate(day(15), 1) + &rate(day(16), 0)),
    );
    cases.load(ACCEPTED, whole(rate(day(15), 1) + &rate(day(15), 2)));
    cases.load((12, 2), whole(&one_more));
    cases.load((6, 2), whole(advance(day(16)) + &rate(day(16), 4_001)));

    cases.load(ACCEPTED, whole(rate(day(14), 3) + &one_more));
    cases.load((12, 2), whole(advance(day(17)) + &rate(day(17), 3)));
    cases.load(ACCEPTED, whole(rate(day(0), 4_000)));
}

fn transfers(cases: &mut Cases) {
    for (expected, cedent, assignee, parts) in [
        ((10, 4), 0, 2, 1),
        ((10, 4), 1, 0, 1),
        ((10, 4), 1, 1, 1),
        ((10, 4), 3, 2, 1),
        ((10, 4), 999_999_999, 1, WIDEST),
        ((11, 4), 1, 2, 0),
        ((11, 4), 1, 2, 600_001),
        ((11, 4), 1, 2, 1 << 32),
        ((11, 4), 1, 3, (1 << 32) + 1),
        ((11, 4), 1, 2, (232_830 << 32) + 600_000),
        ((11, 4), 1, 2, WIDEST),
        (ACCEPTED, 1, 2, 1),
        (ACCEPTED, 2, 3, 400_000),
        (ACCEPTED, 1, 999_999_999, 600_000),
    ] {
        cases.fresh(
            expected,
            whole(opened() + &transfer(cedent, assignee, parts)),
        );
    }
    // The emptied holder stays a position.
    cases.load((11, 1), whole(transfer(1, 2, 1)));

    let there_and_back = transfer(2, 1, 1) + &transfer(1, 2, 1);
    cases.load((11, 3), whole(there_and_back.clone() + &transfer(1, 2, 1)));
    cases.load(ACCEPTED, whole(there_and_back + &advance(day(1))));
    // Today's unit-days are the assignee's.
    let day_1 = opened() + &advance(day(1));
    let sold = day_1 + &transfer(1, 3, 600_000) + &advance(day(2));
    cases.fresh(ACCEPTED, whole(sold + &settle(1_000)));
}

/// A 64th position and a 65th.
fn full(cases: &mut Cases) {
    let o = open(20140101, 365, 2_000, 100_000_000);
    let sixty_three = o + &financings(62) + &finance(63, 31_250);
    let last = transfer(63, 64, 15_625);
    cases.fresh(
        (12, 66),
        whole(sixty_three.clone() + &last + &transfer(1, 65, 1)),
    );
    cases.load(ACCEPTED, whole(sixty_three + &last));
    cases.load((12, 1), whole(transfer(1, 65, 1)));
    cases.load((11, 1), whole(transfer(1, 65, 15_626)));
    cases.load(
        (12, 2),
        whole(transfer(1, 2, 15_625) + &transfer(2, 65, 31_250)),
    );
    cases.load((10, 1), whole(transfer(65, 1, 1)));
}

fn settlements(cases: &mut Cases) {
    let most = 100_000_000_000;
    // On day 0.
    cases.empty();
    for (number, cents) in [(13, 0), (13, 1), (13, most), (5, most + 1), (5, WIDEST)] {
        cases.load((number, 4), whole(opened() + &settle(cents)));
    }
    // 100,005,425 cents are owed on day 1.
    let day_1 = opened() + &advance(day(1));
    for (expected, cents) in [
        ((14, 5), 100_005_426),
        ((14, 5), most),
        ((5, 5), most + 1),
        ((5, 5), (232_830 << 32) + 5),
        ((5, 5), WIDEST),
        (ACCEPTED, 0),
        (ACCEPTED, 5_426),
        (ACCEPTED, 100_005_425),
    ] {
        cases.fresh(expected, whole(day_1.clone() + &settle(cents)));
    }
    // Nothing is owed any more. The day is settled.
    cases.load((13, 1), whole(settle(0)));
    cases.load((14, 2), whole(advance(day(2)) + &settle(1)));
    cases.load((13, 3), whole(advance(day(2)) + &settle(0) + &settle(0)));
    cases.load(ACCEPTED, whole(advance(day(2)) + &settle(0)));
    // The most of all.
    let rich = open(20140101, 365, 2_000, 1_000_000_000_000) + &finance(1, ALL);
    let rich = rich + &advance(day(1));
    cases.fresh((5, 4), whole(rich.clone() + &settle(most + 1)));
    cases.load(ACCEPTED, whole(rich + &settle(most)));
    cases.load((5, 1), whole(settle(most + 1)));

    // The 240th, and one more in the same file or in a later one.
    let mut lines = open(20140101, 6_000, 2_000, 100_000_000) + &finance(1, ALL);
    for number in 1..=240 {
        lines += &advance(day(number));
        lines += &settle(u64::from(number % 17));
    }
    let one_more = advance(day(241)) + &settle(0);
    cases.fresh((12, 484), whole(lines.clone() + &one_more));
    cases.load(ACCEPTED, whole(lines));
    cases.load((12, 1), whole(settle(0)));
    cases.load((5, 1), whole(settle(most + 1)));
    cases.load((12, 2), whole(one_more));
    cases.load((9, 1), whole(advance(day(333))));
    cases.load(ACCEPTED, whole(advance(day(332))));

    cases.load((9, 1), whole(advance(day(333))));
}
