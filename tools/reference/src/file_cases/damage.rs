//! The paper's example file cut, with bytes changed, lost or added, and with
//! its lines in other orders; then files damaged at random.

use super::*;
use crate::random::Random;

pub fn cases(cases: &mut Cases) {
    cuts(cases);
    bytes_lost(cases);
    bytes_added(cases);
    bits_turned(cases);
    digits_changed(cases);
    lines_moved(cases);
    at_random(cases);
}

/// With the line feed.
const LINE: usize = 43;

/// The start of the F line: without an F there, Open runs with no holders.
const F: usize = LINE;

/// After so many bytes.
fn cuts(cases: &mut Cases) {
    cases.empty();
    for length in 0..=PAPER.len() {
        let lines = length as u64 / 43;
        let expected = match (lines, length % 43) {
            (0, 0) => (20, 1),
            (1, 0) => (7, 1), // no holders
            (7, 0) => ACCEPTED,
            (_, 0) => (22, lines + 1), // no E
            _ => (21, lines + 1),
        };
        cases.load(expected, &PAPER[..length]);
    }
    // The book is open now.
    for (expected, length) in [
        ((21, 1), 42),
        ((2, 1), 43),
        ((21, 2), 85),
        ((2, 1), 86),
        ((2, 1), 87),
        ((2, 1), 300),
    ] {
        cases.load(expected, &PAPER[..length]);
    }
}

fn bytes_lost(cases: &mut Cases) {
    cases.empty();
    for place in (0..PAPER.len()).filter(|place| place % 43 == 9 || matches!(place % LINE, 0 | 42))
    {
        let mut file = PAPER.as_bytes().to_vec();
        file.remove(place);
        let expected = match place {
            F => (7, 1),
            _ => (21, (place / LINE) as u64 + 1),
        };
        cases.load(expected, file);
    }
}

fn bytes_added(cases: &mut Cases) {
    cases.empty();
    let added = |cases: &mut Cases, place: usize, byte: u8| {
        let mut file = PAPER.as_bytes().to_vec();
        file.insert(place, byte);
        // A line feed before a line feed is one after it, too.
        let place = match place % LINE {
            42 if byte == b'\n' => place + 1,
            _ => place,
        };
        let expected = match place {
            F if byte != b'F' => (7, 1),
            301 => (22, 8),
            _ => (21, (place / LINE) as u64 + 1),
        };
        cases.load(expected, file);
    };
    let bytes = b" 0\n1F\0\t9\xff\rE\n";
    for (turn, place) in (0..=PAPER.len()).step_by(27).enumerate() {
        added(cases, place, bytes[turn % bytes.len()]);
    }
    for line_feed in (42..PAPER.len()).step_by(LINE) {
        added(cases, line_feed, b'\n');
    }
    for (place, byte) in [(F, b'F'), (F, 0), (2 * LINE, b'F'), (301, b'E'), (301, 255)] {
        added(cases, place, byte);
    }
}

/// One of the four higher bits makes no byte of the file a good one.
fn bits_turned(cases: &mut Cases) {
    cases.empty();
    for (turn, place) in (0..PAPER.len())
        .filter(|place| place % 30 == 1 || place % LINE == 0)
        .enumerate()
    {
        let mut file = PAPER.as_bytes().to_vec();
        file[place] ^= 16 << (turn % 4);
        let expected = match place {
            F => (7, 1),
            _ => (21, (place / LINE) as u64 + 1),
        };
        cases.load(expected, file);
    }
    // Other bits of the F, and of the last line feed.
    for bit in [1, 4, 255] {
        for (expected, place) in [((7, 1), F), ((21, 7), 300)] {
            let mut file = PAPER.as_bytes().to_vec();
            file[place] ^= bit;
            cases.load(expected, file);
        }
    }
}

/// One of the four lower bits of a digit: most are digits again. Any answer.
fn digits_changed(cases: &mut Cases) {
    let digits = PAPER
        .bytes()
        .enumerate()
        .filter(|(_, byte)| byte.is_ascii_digit());
    for (turn, (place, _)) in digits.enumerate().step_by(3) {
        let mut file = PAPER.as_bytes().to_vec();
        file[place] ^= 1 << (turn % 4);
        cases.empty();
        cases.any(&file);
    }
}

fn lines_moved(cases: &mut Cases) {
    let lines: Vec<&str> = PAPER.split_inclusive('\n').collect();
    for (expected, order) in [
        // Two lines in each other's place.
        ((21, 1), &[1, 0, 2, 3, 4, 5, 6][..]),
        ((7, 1), &[0, 2, 1, 3, 4, 5, 6]),
        (ACCEPTED, &[0, 1, 3, 2, 4, 5, 6]),
        (ACCEPTED, &[0, 1, 2, 4, 3, 5, 6]),
        (ACCEPTED, &[0, 1, 2, 3, 5, 4, 6]),
        ((22, 6), &[0, 1, 2, 3, 4, 6, 5]),
        ((8, 5), &[0, 1, 4, 3, 2, 5, 6]),
        ((13, 3), &[0, 1, 5, 3, 4, 2, 6]),
        ((1, 1), &[2, 0, 1, 3, 4, 5, 6]),
        // One twice.
        ((7, 1), &[0, 1, 1, 2, 3, 4, 5, 6]),
        ((22, 8), &[0, 1, 2, 3, 3, 4, 5, 6]),
        ((13, 7), &[0, 1, 2, 3, 4, 5, 5, 6]),
        ((22, 8), &[0, 1, 2, 3, 4, 5, 6, 6]),
        // One missing.
        ((7, 1), &[0, 2, 3, 4, 5, 6]),
        ((22, 6), &[0, 1, 3, 4, 5, 6]),
        ((22, 7), &[0, 1, 2, 3, 4, 5]),
    ] {
        let file: String = order.iter().map(|&place: &usize| lines[place]).collect();
        cases.fresh(expected, file);
    }
}

/// Files on the book that the last ones left, and now and then on an empty one.
fn at_random(cases: &mut Cases) {
    let mut random = Random::seeded(21, 0);
    let day_1 = opened() + &advance(day(1));
    let sound = [
        PAPER.to_string(),
        whole(opened()),
        whole(day_1.clone() + &transfer(1, 3, 5) + &rate(day(0), 1_234) + &settle(4_000)),
        whole(day_1 + &settle(6_000) + &advance(day(90)) + &settle(0) + &rate(day(7), 9)),
    ];
    for number in 0..100 {
        if number % 3 == 0 {
            cases.empty();
        }
        let mut file = match cases.book.totals() {
            Err(_) => random.pick(&sound),
            Ok(totals) => {
                let next = advance(totals.today + 1);
                let cents = random.below(totals.due.0 + 2);
                whole(next + &transfer(2, 7, 1) + &settle(cents) + &rate(20140101, 100))
            }
        }
        .into_bytes();
        for _ in 0..random.between(1, 3) {
            damage(&mut random, &mut file);
        }
        cases.any(&file);
    }
}

fn damage(random: &mut Random, file: &mut Vec<u8>) {
    let places: Vec<usize> = (0..file.len()).collect();
    let digits: Vec<usize> = places
        .iter()
        .copied()
        .filter(|&place| file[place].is_ascii_digit())
        .collect();
    if digits.is_empty() {
        return;
    }
    let place = random.pick(&places);
    match random.below(16) {
        0 => file[place] ^= 1 << random.below(8),
        1 => file[place] = random.below(256) as u8,
        2 => file.insert(place, random.pick(b" 0F\n\0\xff")),
        3 => {
            file.remove(place);
        }
        4 => file.truncate(place),
        5 => file.push(random.pick(b"\n FE\0")),
        6 => file[place / LINE * LINE] = random.pick(b"OFDRTSE"),
        7..=9 => move_lines(random, file),
        _ => file[random.pick(&digits)] = random.pick(b"0123456789"),
    }
}

/// A line taken out, put in again, or put elsewhere.
fn move_lines(random: &mut Random, file: &mut Vec<u8>) {
    let mut lines: Vec<Vec<u8>> = file
        .split_inclusive(|&byte| byte == b'\n')
        .map(<[u8]>::to_vec)
        .collect();
    let count = lines.len() as u64;
    let from = random.below(count) as usize;
    let line = lines[from].clone();
    let kind = random.below(3);
    if kind > 0 {
        lines.remove(from);
    }
    if kind < 2 {
        let to = random.below(lines.len() as u64 + 1) as usize;
        lines.insert(to, line);
    }
    *file = lines.concat();
}
