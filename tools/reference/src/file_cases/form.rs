//! Malformed lines in files.

use super::*;

pub fn cases(cases: &mut Cases) {
    every_field(cases);
    numbers(cases);
    letters(cases);
    one_line(cases);
    lengths(cases);
    line_ends(cases);
}

/// A file with all seven letters, line by line.
const GOOD: [(&str, [&str; 4]); 7] = [
    ("O", ["20140101", "365", "2000", "100000000"]),
    ("F", ["", "1", "", "1000000"]),
    ("D", ["20140111", "", "", ""]),
    ("R", ["20140105", "", "", "1000"]),
    ("T", ["", "1", "2", "500000"]),
    ("S", ["", "", "", "100"]),
    ("E", ["", "", "", "6"]),
];

fn good_line(place: usize) -> String {
    let (letter, texts) = GOOD[place];
    line(letter, texts)
}

/// The good file but for one line.
fn with(place: usize, line: &[u8]) -> Vec<u8> {
    let mut file = Vec::new();
    for other in 0..7 {
        match other == place {
            true => file.extend(line),
            false => file.extend(good_line(other).bytes()),
        }
    }
    file
}

/// By turns a used field that is missing, has a leading zero or isn't
/// right-justified; and an unused one that is used.
fn every_field(cases: &mut Cases) {
    cases.fresh(ACCEPTED, with(7, b""));
    cases.empty();
    let mut turn = 0;
    for (place, (letter, texts)) in GOOD.into_iter().enumerate() {
        for field in 0..4 {
            turn += 1;
            let bad = match (texts[field], field, turn % 3) {
                ("", _, 0) => "9".repeat([8, 9, 9, 15][field]),
                ("", _, _) => "0".to_string(),
                (_, _, 0) => String::new(),
                (_, 0, 1) => "02014010".to_string(),
                (_, 0, _) => "2014010 ".to_string(),
                (text, _, 1) => format!("0{text}"),
                (text, _, _) => format!("{text} "),
            };
            let mut texts = texts;
            texts[field] = &bad;
            let line = line(letter, texts);
            cases.load((21, place as u64 + 1), with(place, line.as_bytes()));
        }
    }
}

/// What is no number, as the cents of S.
fn numbers(cases: &mut Cases) {
    for text in ["00", "-100", "+100", "1 00", "\t100", "100\0", "1:", "/1"] {
        let line = line("S", ["", "", "", text]);
        cases.load((21, 6), with(5, line.as_bytes()));
    }
    // Bytes that are a space or a digit once a bit is dropped, and a line feed:
    // the line ends there.
    for (column, byte) in [(38, b' ' + 128), (41, b'0' + 128), (0, b'\n'), (41, b'\n')] {
        let mut line = settle(100).into_bytes();
        line[column] = byte;
        cases.load((21, 6), with(5, &line));
    }
    // Zeros are numbers.
    cases.load((3, 1), with(0, open(0, 0, 0, 0).as_bytes()));
    cases.load((7, 1), with(1, finance(0, 0).as_bytes()));
    cases.load((3, 3), with(2, advance(0).as_bytes()));
    cases.load((3, 4), with(3, rate(0, 0).as_bytes()));
    cases.load((11, 5), with(4, transfer(1, 2, 0).as_bytes()));
    cases.load((22, 7), with(6, end(0).as_bytes()));
    cases.load(ACCEPTED, with(5, settle(0).as_bytes()));
}

/// Another letter in each line. A line after O that doesn't begin with F lets
/// Open run.
fn letters(cases: &mut Cases) {
    cases.empty();
    for (expected, place, letter) in [
        ((21, 1), 0, "o"),
        ((7, 1), 1, "f"),
        ((21, 3), 2, "d"),
        ((21, 4), 3, "r"),
        ((21, 5), 4, "t"),
        ((21, 6), 5, "s"),
        ((21, 7), 6, "e"),
        ((7, 1), 1, "\n"),
        ((7, 1), 1, "T"),
        ((21, 1), 0, "F"),
        ((21, 3), 2, "F"),
        ((21, 5), 4, "F"),
        ((21, 4), 3, "D"),
        ((22, 6), 5, "E"),
        ((13, 7), 6, "S"),
    ] {
        let line = line(letter, GOOD[place].1);
        cases.load(expected, with(place, line.as_bytes()));
    }
}

/// Files of one line with this letter and a third number alone.
fn one_line(cases: &mut Cases) {
    cases.empty();
    for letter in [
        0,
        10,
        32,
        b'A',
        b'D',
        b'E',
        b'F',
        b'O',
        b'R',
        b'S',
        b'T',
        b'e',
        b'E' + 128,
        255,
    ] {
        let expected = match letter {
            b'S' => (1, 1),
            b'E' => ACCEPTED,
            _ => (21, 1),
        };
        let mut line = settle(0).into_bytes();
        line[0] = letter;
        cases.load(expected, line);
    }
}

fn lengths(cases: &mut Cases) {
    // A column less, a column more, two less, two more, no line feed.
    for place in 0..7 {
        let good = good_line(place);
        let bad = match place % 2 {
            0 => good.replacen("  ", " ", 1),
            _ => good.replacen("  ", "   ", 1),
        };
        cases.load((21, place as u64 + 1), with(place, bad.as_bytes()));
    }
    for (expected, place, text) in [
        ((7, 1), 1, "\n"),
        ((21, 2), 1, "F\n"),
        ((21, 7), 6, "E\n"),
        ((21, 5), 4, good_line(4).replacen("   ", " ", 1).as_str()),
        ((21, 6), 5, good_line(5).replace('\n', "  \n").as_str()),
        ((21, 1), 0, good_line(0).trim_end()),
        ((21, 7), 6, good_line(6).trim_end()),
    ] {
        cases.load(expected, with(place, text.as_bytes()));
    }
    // 5,000 bytes.
    let long = "S".to_string() + &" ".repeat(4_997) + "5\n";
    cases.load((21, 6), with(5, long.as_bytes()));
    cases.load((21, 2), with(1, long.replace('S', "F").as_bytes()));
    cases.load((7, 1), with(1, &[0; 500]));
}

/// Line ends of other systems, tabs, marks before the text.
fn line_ends(cases: &mut Cases) {
    cases.load((21, 1), PAPER.replace('\n', "\r\n"));
    cases.load((7, 1), PAPER.replace('\n', "\n\r"));
    cases.load((21, 1), PAPER.replace('\n', "\r"));
    cases.load((7, 1), PAPER.replace('\n', "\n\n"));
    cases.load((21, 1), PAPER.replace("        ", "\t"));
    cases.load((21, 1), PAPER.replace(' ', "\0"));
    // Without the spaces that the D lines end in.
    let spaces = " ".repeat(33) + "\n";
    cases.load((21, 3), PAPER.replace(&spaces, "\n"));
    cases.load((21, 1), "\u{feff}".to_string() + PAPER);
    cases.load((21, 1), "\n".to_string() + PAPER);
    for number in [1, 2, 4, 7] {
        let (before, rest) = PAPER.split_at(43 * number - 1);
        cases.load((21, number as u64), before.to_string() + "\r" + rest);
    }
}
