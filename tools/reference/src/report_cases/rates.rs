//! Books after Rate. The daily rates of 2,000 and 4,000 are 542,552 and
//! 1,074,598.

use super::*;

pub fn cases(cases: &mut Cases) {
    the_papers_examples(cases);
    no_settlement(cases);
    payments_already_made(cases);
    as_many_as_a_book_holds(cases);
    to_the_nearest_unit(cases);
}

/// The paper's examples 11 and 12.
fn the_papers_examples(cases: &mut Cases) {
    let opening = open(20140101, 365, 2_000, 1_000_000_000) + &finance(1, ALL);
    let day_1 = opening + &advance(20140102);
    let paid = day_1.clone() + &settle(100_000);
    let again = rate(20140101, 0);
    cases.stated(
        whole(&paid),
        &[
            "B20140102      999954255              0 2000000000          45745          54255",
            "H        1  1000000           0         100000",
        ],
    );
    cases.stated(
        whole(paid + &again),
        &[
            "B20140102      999900000              0          0         100000              0",
            "H        1  1000000           0         100000",
        ],
    );
    cases.stated(
        whole(day_1 + &settle(1_000_054_255) + &again),
        &["X 14        5"],
    );
}

/// 10^10 cents, so that a day's interest is its daily rate.
fn no_settlement(cases: &mut Cases) {
    let opening = open(20140101, 365, 2_000, 10_000_000_000) + &finance(1, ALL);
    let day_10 = opening + &advance(20140111);
    let h_line = "H        1  1000000    10000000              0";
    for (rates, b_line) in [
        (
            String::new(),
            "B20140111    10000000000        5425520          0              0              0",
        ),
        // From today on.
        (
            rate(20140111, 4_000),
            "B20140111    10000000000        5425520          0              0              0",
        ),
        (
            rate(20140101, 4_000),
            "B20140111    10000000000       10745980          0              0              0",
        ),
        (
            rate(20140101, 0),
            "B20140111    10000000000              0          0              0              0",
        ),
        // Four days and six.
        (
            rate(20140105, 4_000),
            "B20140111    10000000000        8617796          0              0              0",
        ),
        // The later order takes the place of the first; or it stands before it.
        (
            rate(20140106, 0) + &rate(20140103, 4_000),
            "B20140111    10000000000        9681888          0              0              0",
        ),
        (
            rate(20140103, 4_000) + &rate(20140106, 0),
            "B20140111    10000000000        4308898          0              0              0",
        ),
    ] {
        cases.stated(whole(day_10.clone() + &rates), &[b_line, h_line]);
    }
    // The days after the order have its rate.
    cases.stated(
        whole(day_10 + &rate(20140111, 4_000) + &advance(20140112)),
        &[
            "B20140112    10000000000        6500118          0              0              0",
            "H        1  1000000    11000000              0",
        ],
    );
}

/// The same settlement, of 107,459 cents of interest and more instead of 54,255.
fn payments_already_made(cases: &mut Cases) {
    let opening = open(20140101, 365, 2_000, 1_000_000_000) + &finance(1, ALL);
    let day_1 = opening + &advance(20140102);
    cases.stated(
        whole(day_1.clone() + &settle(100_000) + &rate(20140101, 4_000)),
        &[
            "B20140102     1000000000           7459 8000000000              0         100000",
            "H        1  1000000           0         100000",
        ],
    );
    cases.stated(
        whole(day_1 + &settle(200_000) + &rate(20140101, 4_000)),
        &[
            "B20140102      999907459              0 8000000000          92541         107459",
            "H        1  1000000           0         200000",
        ],
    );
}

/// A day at 2,000 and 19 at 4,000, which is stored fifteen times.
fn as_many_as_a_book_holds(cases: &mut Cases) {
    let mut lines = open(20140101, 365, 2_000, 10_000_000_000) + &finance(1, ALL);
    lines += &advance(20140121);
    for number in 1..=15 {
        lines += &rate(day(number), 4_000);
    }
    cases.stated(
        whole(lines),
        &[
            "B20140121    10000000000       20959914          0              0              0",
            "H        1  1000000    20000000              0",
        ],
    );
}

/// With daily rates rounded down there would be a cent less of interest (document
/// 02, Req 02).
fn to_the_nearest_unit(cases: &mut Cases) {
    // 10,745.98 cents a day for 50 days: 537,299.
    let opening = open(20140101, 365, 4_000, 100_000_000) + &finance(1, ALL);
    let day_50 = opening + &advance(20140220);
    cases.stated(
        whole(day_50.clone() + &settle(100_537_299)),
        &[
            "B20140220              0              0          0      100000000         537299",
            "H        1  1000000           0      100537299",
        ],
    );
    cases.stated(whole(day_50 + &settle(100_537_300)), &["X 14        4"]);
    // A day at 1: 36,496,351 × 274 is 10,000,000,174.
    let opening = open(20140101, 365, 2_000, 36_496_351) + &finance(1, ALL);
    cases.stated(
        whole(opening + &advance(20140102) + &rate(20140101, 1)),
        &[
            "B20140102       36496351              1        174              0              0",
            "H        1  1000000     1000000              0",
        ],
    );
}
