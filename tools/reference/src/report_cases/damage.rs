//! The paper's example cut and with its lines in other orders; then short files
//! at random.

use super::*;
use crate::random::Random;
use crate::random_files;

pub fn cases(cases: &mut Cases) {
    cuts(cases);
    lines_moved(cases);
    line_ends(cases);
    at_random(cases);
}

/// After so many bytes.
fn cuts(cases: &mut Cases) {
    for (length, x_line) in [
        (1, "X 21        1"),
        (42, "X 21        1"),
        (43, "X  7        1"),
        (44, "X 21        2"),
        (86, "X 22        3"),
        (100, "X 21        3"),
        (129, "X 22        4"),
        (150, "X 21        4"),
        (172, "X 22        5"),
        (214, "X 21        5"),
        (258, "X 22        7"),
        (259, "X 21        7"),
        (300, "X 21        7"),
    ] {
        cases.stated(&PAPER[..length], &[x_line]);
    }
}

/// Of the example's lines, by their places.
fn lines_moved(cases: &mut Cases) {
    let lines: Vec<&str> = PAPER.split_inclusive('\n').collect();
    let b_line = "B20140131              0              0 1627656000            100              0";
    for (order, expected) in [
        (&[1, 0, 2, 3, 4, 5, 6][..], &["X 21        1"][..]),
        (&[0, 2, 1, 3, 4, 5, 6], &["X  7        1"]),
        (&[0, 1, 4, 3, 2, 5, 6], &["X  8        5"]),
        (&[0, 1, 5, 3, 4, 2, 6], &["X 13        3"]),
        (&[2, 0, 1, 3, 4, 5, 6], &["X  1        1"]),
        (&[0, 1, 1, 2, 3, 4, 5, 6], &["X  7        1"]),
        (&[0, 1, 2, 3, 3, 4, 5, 6], &["X 22        8"]),
        (&[0, 1, 2, 3, 4, 5, 5, 6], &["X 13        7"]),
        (&[0, 1, 3, 4, 5, 6], &["X 22        6"]),
        // The transfer on the first day, or on the last.
        (
            &[0, 1, 3, 2, 4, 5, 6],
            &[
                b_line,
                "H        1   500000           0             50",
                "H        2   500000           0             50",
            ],
        ),
        (
            &[0, 1, 2, 4, 3, 5, 6],
            &[
                b_line,
                "H        1   500000           0            100",
                "H        2   500000           0              0",
            ],
        ),
        // The settlement before the last advance: ten days' interest is a fraction.
        (
            &[0, 1, 2, 3, 5, 4, 6],
            &[
                "B20140131              0              0  542552000            100              0",
                "H        1   500000    10000000            100",
                "H        2   500000    10000000              0",
            ],
        ),
    ] {
        let file: String = order.iter().map(|&place: &usize| lines[place]).collect();
        cases.stated(file, expected);
    }
}

fn line_ends(cases: &mut Cases) {
    cases.stated(PAPER.replace('\n', "\r\n"), &["X 21        1"]);
    cases.stated(PAPER.replace('\n', "\n\r"), &["X  7        1"]);
    cases.stated("\u{feff}".to_string() + PAPER, &["X 21        1"]);
    let every_byte: Vec<u8> = (0..=255).collect();
    cases.stated(every_byte, &["X 21        1"]);
}

fn at_random(cases: &mut Cases) {
    let mut random = Random::seeded(31, 0);
    let mut left = 50;
    while left > 0 {
        let file = random_files::any(&mut random);
        if file.len() <= 600 {
            cases.any(file);
            left -= 1;
        }
    }
}
