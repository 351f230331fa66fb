//! X lines: every refusal, with line numbers of one to four digits.

use super::*;

pub fn cases(cases: &mut Cases) {
    first_lines(cases);
    early_lines(cases);
    lines_of_two_digits(cases);
    lines_of_three_digits(cases);
    a_line_of_four_digits(cases);
}

/// Refused at the first line. An empty book has no other for 1, 4 and 20.
fn first_lines(cases: &mut Cases) {
    cases.stated("", &["X 20        1"]);
    for order in [
        advance(20140102),
        advance(5),
        rate(20140101, 2_000),
        transfer(1, 2, 1),
        transfer(0, 0, 0),
        settle(0),
        settle(WIDEST),
    ] {
        cases.stated(whole(order), &["X  1        1"]);
    }
    let f = finance(1, ALL);
    for (o, x_line) in [
        (open(20140229, 30, 2_000, 100), "X  3        1"),
        (open(0, 0, 0, 0), "X  3        1"),
        (open(22000101, 30, 2_000, 100), "X  3        1"),
        (open(20140101, 0, 2_000, 100), "X  4        1"),
        (open(20140101, 6_001, 2_000, 100), "X  4        1"),
        (open(21000101, 30, 2_000, 100), "X  4        1"),
        (open(20140101, 30, 2_000, 0), "X  5        1"),
        (open(20140101, 30, 4_001, WIDEST), "X  5        1"),
        (
            open(20140101, 30, 2_000, 1_000_000_000_001),
            "X  5        1",
        ),
        (open(20140101, 30, 4_001, 100), "X  6        1"),
    ] {
        cases.stated(whole(o + &f), &[x_line]);
    }
    let o = open(20140101, 30, 2_000, 100);
    for financing in [
        String::new(),
        finance(0, ALL),
        finance(1, ALL - 1),
        finance(1, ALL + 1),
        finance(1, WIDEST),
        finance(1, 1) + &finance(1, ALL - 1),
        finance(1, 0) + &finance(2, ALL),
    ] {
        cases.stated(whole(o.clone() + &financing), &["X  7        1"]);
    }
    for file in [
        "\n".to_string(),
        "\0".to_string(),
        f.clone(),
        whole(f),
        o.to_lowercase(),
        o[..42].to_string(),
        end(0)[..42].to_string(),
        end(0).replace(" 0", "00"),
    ] {
        cases.stated(file, &["X 21        1"]);
    }
    cases.stated([255; 43], &["X 21        1"]);
    for count in [1, 10, 1 << 32, WIDEST] {
        cases.stated(end(count), &["X 22        1"]);
    }
}

/// Refused at a line from 2 to 9.
fn early_lines(cases: &mut Cases) {
    for (order, x_line) in [
        (open(20140101, 365, 2_000, 100), "X  2        4"),
        (open(0, 0, 0, 0), "X  2        4"),
        (advance(20140229), "X  3        4"),
        (advance(99999999), "X  3        4"),
        (rate(20140132, 4_001), "X  3        4"),
        (settle(100_000_000_001), "X  5        4"),
        (settle(WIDEST), "X  5        4"),
        (rate(20140101, 4_001), "X  6        4"),
        (rate(20131231, WIDEST), "X  6        4"),
        (advance(20140101), "X  8        4"),
        (advance(20150102), "X  8        4"),
        (rate(20140102, 2_000), "X  8        4"),
        (rate(20131231, 2_000), "X  8        4"),
        (advance(20140404), "X  9        4"),
        (advance(20150101), "X  9        4"),
        (transfer(1, 1, 1), "X 10        4"),
        (transfer(3, 1, 1), "X 10        4"),
        (transfer(1, 0, 1), "X 10        4"),
        (transfer(1, 2, 0), "X 11        4"),
        (transfer(1, 2, 600_001), "X 11        4"),
        (transfer(1, 3, WIDEST), "X 11        4"),
        (settle(0), "X 13        4"),
        (settle(100_000_000_000), "X 13        4"),
    ] {
        cases.stated(whole(opened() + &order), &[x_line]);
    }
    // 100,005,425 cents are owed on day 1.
    let day_1 = opened() + &advance(20140102);
    let paid = day_1.clone() + &settle(100_005_425);
    for (lines, x_line) in [
        (day_1.clone() + &advance(20140102), "X  8        5"),
        (day_1.clone() + &settle(100_005_426), "X 14        5"),
        (paid.clone() + &settle(0), "X 13        6"),
        (paid.clone() + &rate(20140101, 1_999), "X 14        6"),
        (paid.clone() + &advance(20140405), "X  9        6"),
        (
            paid.clone() + &transfer(1, 2, 600_000) + &transfer(1, 2, 1),
            "X 11        7",
        ),
        (
            paid.clone() + &advance(20140103) + &settle(0) + &settle(0),
            "X 13        8",
        ),
        (paid.clone() + &finance(3, 1), "X 21        6"),
    ] {
        cases.stated(whole(lines), &[x_line]);
    }
    for (file, x_line) in [
        (opened(), "X 22        4"),
        (paid.clone(), "X 22        6"),
        (opened() + &end(2), "X 22        4"),
        (opened() + &end(4) + "\n", "X 22        4"),
        (whole(opened()) + "\n", "X 22        5"),
        (whole(&paid) + &end(5), "X 22        7"),
        (end(0) + &end(0), "X 22        2"),
        (PAPER.to_string() + PAPER, "X 22        8"),
        (PAPER.replace('S', "s"), "X 21        6"),
        (PAPER[..300].to_string(), "X 21        7"),
        (paid + "D20140103", "X 21        6"),
    ] {
        cases.stated(file, &[x_line]);
    }
}

/// Orders that are accepted, so many lines with O and F: half of the right goes
/// to and fro.
fn orders(lines: u64) -> String {
    let mut text = open(20140101, 365, 2_000, 100_000_000) + &finance(1, ALL);
    for number in 2..lines {
        text += &match number % 2 {
            0 => transfer(1, 2, 500_000),
            _ => transfer(2, 1, 500_000),
        };
    }
    text
}

fn lines_of_two_digits(cases: &mut Cases) {
    for (order, x_line) in [
        (open(20140101, 30, 2_000, 100), "X  2       10"),
        (advance(20140229), "X  3       10"),
        (settle(100_000_000_001), "X  5       10"),
        (rate(20140101, 4_001), "X  6       10"),
        (rate(20140102, 4_000), "X  8       10"),
        (advance(20140404), "X  9       10"),
        (transfer(4, 1, 1), "X 10       10"),
        (transfer(1, 2, 1_000_001), "X 11       10"),
        (settle(0), "X 13       10"),
        (advance(20140102) + &settle(100_005_426), "X 14       11"),
        (finance(3, 1), "X 21       10"),
    ] {
        cases.stated(whole(orders(9) + &order), &[x_line]);
    }
    cases.stated(orders(9), &["X 22       10"]);
    cases.stated(orders(10) + &end(9), &["X 22       11"]);
    cases.stated(whole(orders(9)) + &end(10), &["X 22       11"]);
    cases.stated(orders(98) + &advance(5), &["X  3       99"]);

    // The 17th rate, on the first line that can have it.
    let mut rates = opened() + &advance(day(92));
    for number in 1..=15 {
        rates += &rate(day(number), 2_000 + u64::from(number));
    }
    cases.stated(whole(rates + &rate(day(16), 7)), &["X 12       20"]);

    // A 65th F and a 65th position.
    let full = open(20140101, 365, 2_000, 100) + &financings(64);
    cases.stated(full.clone() + &finance(65, 1), &["X  7       66"]);
    cases.stated(full + &transfer(1, 65, 1), &["X 12       66"]);
}

fn lines_of_three_digits(cases: &mut Cases) {
    let again = open(20140101, 365, 2_000, 100);
    cases.stated(whole(orders(99) + &again), &["X  2      100"]);
    cases.stated(orders(99) + &transfer(1, 2, WIDEST), &["X 11      100"]);
    cases.stated(orders(99) + "\n", &["X 21      100"]);
    cases.stated(whole(orders(99)) + "\n", &["X 22      101"]);
    // A 65th F comes before Open's refusal.
    let many = again + &financings(64) + &finance(65, 1);
    cases.stated(orders(34) + &many, &["X  7      100"]);
}

fn a_line_of_four_digits(cases: &mut Cases) {
    cases.stated(orders(999), &["X 22     1000"]);
}
