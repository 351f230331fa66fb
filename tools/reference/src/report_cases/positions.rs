//! Positions: their order, their number, and emptied ones.

use super::*;

pub fn cases(cases: &mut Cases) {
    order(cases);
    emptied(cases);
    bought_again(cases);
    many(cases);
    all_but_one_emptied(cases);
    the_widest_book(cases);
}

/// The B line of a right of 100 cents without interest, on a day.
fn b_line(date: u32) -> String {
    format!("B{date}            100              0          0              0              0")
}

fn right() -> String {
    open(20140101, 365, 0, 100)
}

/// That of first appearance, not that of the numbers.
fn order(cases: &mut Cases) {
    let three = right() + &finance(7, 500_000) + &finance(3, 300_000) + &finance(5, 200_000);
    cases.stated(
        whole(&three),
        &[
            &b_line(20140101),
            "H        7   500000           0              0",
            "H        3   300000           0              0",
            "H        5   200000           0              0",
        ],
    );
    let sold = three + &transfer(5, 4, 1) + &transfer(3, 6, 10) + &transfer(7, 4, 100);
    cases.stated(
        whole(sold),
        &[
            &b_line(20140101),
            "H        7   499900           0              0",
            "H        3   299990           0              0",
            "H        5   199999           0              0",
            "H        4      101           0              0",
            "H        6       10           0              0",
        ],
    );
}

/// A holder without a share keeps its H line, its unit-days and its cash.
fn emptied(cases: &mut Cases) {
    let two = right() + &finance(1, 600_000) + &finance(2, 400_000);
    let day_3 = two.clone() + &advance(20140104);
    let sold = day_3.clone() + &transfer(1, 2, 600_000);
    cases.stated(
        whole(two + &transfer(1, 2, 600_000)),
        &[
            &b_line(20140101),
            "H        1        0           0              0",
            "H        2  1000000           0              0",
        ],
    );
    cases.stated(
        whole(&sold),
        &[
            &b_line(20140104),
            "H        1        0     1800000              0",
            "H        2  1000000     1200000              0",
        ],
    );
    // Two days more: 5,000,000 unit-days, and the seller has 1,800,000.
    cases.stated(
        whole(sold + &advance(20140106) + &settle(10)),
        &[
            "B20140106             90              0          0             10              0",
            "H        1        0           0              4",
            "H        2  1000000           0              6",
        ],
    );
    // To a holder who wasn't there, after a settlement.
    let paid = day_3 + &settle(100) + &transfer(2, 999_999_999, 400_000);
    cases.stated(
        whole(paid + &advance(20140105)),
        &[
            "B20140105              0              0          0            100              0",
            "H        1   600000      600000             60",
            "H        2        0           0             40",
            "H999999999   400000      400000              0",
        ],
    );
}

/// The position stays in its place.
fn bought_again(cases: &mut Cases) {
    let sold = right() + &finance(8, ALL) + &transfer(8, 9, ALL) + &advance(20140102);
    cases.stated(
        whole(sold.clone() + &transfer(9, 8, 999_999)),
        &[
            &b_line(20140102),
            "H        8   999999           0              0",
            "H        9        1     1000000              0",
        ],
    );
    cases.stated(
        whole(sold + &transfer(9, 8, ALL) + &advance(20140103) + &settle(3)),
        &[
            "B20140103             97              0          0              3              0",
            "H        8  1000000           0              2",
            "H        9        0           0              1",
        ],
    );
}

/// 63 positions, 64, and 64 with the last from a transfer.
fn many(cases: &mut Cases) {
    let h_lines: Vec<String> = (1..=64)
        .map(|holder| format!("H{holder:>9}    15625           0              0"))
        .collect();
    let mut lines = vec![b_line(20140101)];
    lines.extend(h_lines);
    let full: Vec<&str> = lines.iter().map(String::as_str).collect();
    cases.stated(whole(right() + &financings(64)), &full);

    let sixty_three = right() + &financings(62) + &finance(63, 31_250);
    cases.stated(
        whole(sixty_three.clone() + &transfer(63, 64, 15_625)),
        &full,
    );
    let last = "H       63    31250           0              0";
    cases.stated(whole(sixty_three), &[&full[..63], &[last]].concat());
}

/// The whole right goes from hand to hand.
fn all_but_one_emptied(cases: &mut Cases) {
    let mut orders = right() + &finance(1, ALL) + &advance(20140102);
    let mut lines = vec![
        b_line(20140102),
        "H        1        0     1000000              0".to_string(),
    ];
    for holder in 2..=64 {
        orders += &transfer(holder - 1, holder, ALL);
        lines.push(format!("H{holder:>9}        0           0              0"));
    }
    lines[64] = "H       64  1000000           0              0".to_string();
    let lines: Vec<&str> = lines.iter().map(String::as_str).collect();
    cases.stated(whole(orders), &lines);
}

/// 64 holders of nine digits, each with a 64th of 10^11 cents.
fn the_widest_book(cases: &mut Cases) {
    let mut orders = open(20140101, 365, 4_000, 1_000_000_000_000);
    let mut lines = vec![
        "B20140404   909886301600       97776199 9926756800    90113698400     9886301600"
            .to_string(),
    ];
    for holder in (999_999_936..=999_999_999).rev() {
        orders += &finance(holder, 15_625);
        lines.push(format!("H{holder}    15625       15625     1562500000"));
    }
    orders += &(advance(20140403) + &settle(100_000_000_000) + &advance(20140404));
    let lines: Vec<&str> = lines.iter().map(String::as_str).collect();
    cases.stated(whole(orders), &lines);
}
