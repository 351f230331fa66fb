//! Lines written, and lines read.

use super::*;

pub fn cases(cases: &mut Cases) {
    written(cases);
    too_wide(cases);
    unused(cases);
    unknown_letters(cases);
    buffers(cases);
    well_formed(cases);
    malformed(cases);
    every_byte(cases);
    lengths(cases);
}

/// The letters, and which of date, first, second and third they use.
const LETTERS: [(u8, [bool; 4]); 7] = [
    (b'O', [true, true, true, true]),
    (b'F', [false, true, false, true]),
    (b'D', [true, false, false, false]),
    (b'R', [true, false, false, true]),
    (b'T', [false, true, true, true]),
    (b'S', [false, false, false, true]),
    (b'E', [false, false, false, true]),
];

const WIDTHS: [u32; 4] = [8, 9, 9, 15];

fn fields(letter: u8, [date, first, second, third]: [u64; 4]) -> Fields {
    Fields {
        letter,
        date: date as u32,
        first: first as u32,
        second: second as u32,
        third,
    }
}

/// The numbers where the letter uses them, else 0.
fn only_used(used: [bool; 4], numbers: [u64; 4]) -> [u64; 4] {
    let mut kept = numbers;
    for (number, used) in kept.iter_mut().zip(used) {
        *number *= u64::from(used);
    }
    kept
}

fn written(cases: &mut Cases) {
    for (letter, used) in LETTERS {
        for numbers in [
            WIDTHS.map(|width| 10_u64.pow(width) - 1),
            WIDTHS.map(|width| 10_u64.pow(width - 1)),
            [20140101, 365, 2_000, 100_000_000],
            [5, 1, 9, 10],
            [0; 4],
        ] {
            cases.write(0, fields(letter, only_used(used, numbers)), LENGTH);
        }
    }
    for digits in 1..=15 {
        let power = 10_u64.pow(digits);
        cases.write(0, fields(b'S', [0, 0, 0, power - 1]), 43);
        let expected = if digits == 15 { 21 } else { 0 };
        cases.write(expected, fields(b'S', [0, 0, 0, power]), 43);
    }
    for third in [(1 << 32) - 1, 1 << 32, (1 << 32) + 7, 123_456_789_012_345] {
        cases.write(0, fields(b'F', [0, 1, 0, third]), 43);
    }
}

/// Each used field one too wide, and the widest of its type.
fn too_wide(cases: &mut Cases) {
    for (letter, used) in LETTERS {
        for place in (0..4).filter(|&place| used[place]) {
            let most: u64 = if place == 3 {
                u64::MAX
            } else {
                u32::MAX.into()
            };
            for number in [10_u64.pow(WIDTHS[place]), most] {
                let mut numbers = only_used(used, [20140101, 1, 2, 3]);
                numbers[place] = number;
                cases.write(21, fields(letter, numbers), 43);
            }
        }
    }
    cases.write(21, fields(b'O', [u32::MAX.into(); 4]), 100);
    cases.write(21, fields(b'E', [0, 0, 0, 1_000_000_000_000_006]), 100);
}

/// Each unused field not 0.
fn unused(cases: &mut Cases) {
    for (letter, used) in LETTERS {
        for place in (0..4).filter(|&place| !used[place]) {
            for number in [1, 10_u64.pow(WIDTHS[place])] {
                let mut numbers = only_used(used, [20140101, 1, 2, 3]);
                numbers[place] = number;
                cases.write(21, fields(letter, numbers), 43);
            }
        }
    }
    cases.write(21, fields(b'D', [20140101, 0, 0, u64::MAX]), 43);
    cases.write(21, fields(b'D', [20140101, 0, 0, 1 << 32]), 43);
    cases.write(21, fields(b'S', [u32::MAX.into(), 0, 0, 5]), 43);
}

fn unknown_letters(cases: &mut Cases) {
    for letter in [
        0,
        10,
        13,
        32,
        b'0',
        b'9',
        b'@',
        b'A',
        b'B',
        b'C',
        b'G',
        b'N',
        b'P',
        b'Q',
        b'U',
        b'X',
        b'Z',
        b'[',
        b'o',
        b'f',
        b'd',
        b'r',
        b't',
        b's',
        b'e',
        127,
        128,
        b'O' + 128,
        255,
    ] {
        cases.write(21, fields(letter, [0; 4]), 43);
    }
    for letter in [0, b'A', b'o', 255] {
        cases.write(21, fields(letter, [20140101, 30, 2_000, 100]), 100);
    }
}

fn buffers(cases: &mut Cases) {
    for (letter, used) in LETTERS {
        let numbers = only_used(used, [20140101, 1, 2, 100_000]);
        for (expected, size) in [(21, 0), (21, 42), (0, 43), (0, 44), (0, 100)] {
            cases.write(expected, fields(letter, numbers), size);
        }
    }
    let settle = [0, 0, 0, 100];
    for size in [1, 2, 21, 41] {
        cases.write(21, fields(b'S', settle), size);
    }
    for size in [45, 64, 85, 86, 90, 91, 99] {
        cases.write(0, fields(b'S', settle), size);
    }
    // With another fault, in a buffer with room and without.
    for size in [0, 42, 44] {
        cases.write(21, fields(b's', settle), size);
        cases.write(21, fields(b'D', settle), size);
        cases.write(21, fields(b'S', [0, 0, 0, 1_000_000_000_000_000]), size);
    }
}

fn well_formed(cases: &mut Cases) {
    for (letter, used) in LETTERS {
        for numbers in [
            ["99999999", "999999999", "999999999", "999999999999999"],
            ["10000000", "100000000", "100000000", "100000000000000"],
            ["20140101", "365", "2000", "4294967296"],
            ["5", "1", "9", "10"],
            ["0", "0", "0", "0"],
        ] {
            cases.read(0, line(&text(letter), kept(used, numbers)));
        }
    }
    for digits in 1..=15 {
        cases.read(0, settle(10_u64.pow(digits) - 1));
        cases.read(0, settle(10_u64.pow(digits - 1)));
    }
}

fn text(letter: u8) -> String {
    char::from(letter).to_string()
}

/// The texts where the letter uses them, else none.
fn kept(used: [bool; 4], texts: [&str; 4]) -> [&str; 4] {
    let mut kept = texts;
    for (text, used) in kept.iter_mut().zip(used) {
        *text = if used { *text } else { "" };
    }
    kept
}

/// Each field of each letter.
fn malformed(cases: &mut Cases) {
    for (letter, used) in LETTERS {
        for place in 0..4 {
            let texts = match used[place] {
                true => &[
                    "", "00", "01", "-1", "+1", "1 ", "0 ", "1 2", "\t1", "1\t", "a", "1a", "\0",
                    "1.0",
                ][..],
                false => &["0", "1", "00", "1 ", "\t", "\0", "a", "-"],
            };
            for text in texts {
                let mut numbers = kept(used, ["20140101", "1", "2", "3"]);
                numbers[place] = text;
                cases.read(21, line(&self::text(letter), numbers));
            }
        }
    }
    // Not to the right, or not alone, in the whole width of a field.
    for third in [
        "0              ",
        "1              ",
        "1             1",
        "              -",
        "              +",
        "000000000000001",
        "00000000000000 ",
        "-99999999999999",
        "99999999999999 ",
        "9999999 9999999",
        "9999999999999:9",
        "/99999999999999",
    ] {
        cases.read(21, line("S", ["", "", "", third]));
    }
    // Numbers that reach into the field before, or touch the one in it.
    cases.read(21, line("S", ["", "", "", "1000000000000000"]));
    cases.read(21, format!("S{:>41}\n", "1000000000000000"));
    cases.read(21, format!("O{:>41}\n", "1000000000000000"));
    cases.read(21, format!("T{:>17}{:>24}\n", "1", "2000000000000000"));
    cases.read(0, format!("T{:>17}{:>24}\n", "1", "2100000000000000"));
    for (expected, digits) in [
        (21, "9123456789123456789123456789123456"), // into the date
        (0, "123456789123456789123456789123456"),
        (21, "123456789023456789123456789123456"), // a second with a leading zero
        (0, "1123456789123456789123456"),
        (21, "123456789123456789123456"), // no first
    ] {
        cases.read(expected, format!("T{digits:>41}\n"));
    }
}

/// Each of the 256 bytes as a letter, as a last digit, as a first digit, and as
/// the line feed.
fn every_byte(cases: &mut Cases) {
    for byte in 0..=255 {
        let mut line = settle(0).into_bytes();
        line[0] = byte;
        cases.read(if b"SE".contains(&byte) { 0 } else { 21 }, &line);
    }
    for byte in 0..=255 {
        let mut line = transfer(1, 2, 5).into_bytes();
        line[41] = byte;
        cases.read(if byte.is_ascii_digit() { 0 } else { 21 }, &line);
    }
    for byte in (0..=255_u8).filter(|byte| byte % 8 == 1 || (28..64).contains(byte)) {
        let mut line = transfer(1, 2, 5).into_bytes();
        line[40] = byte;
        let allowed = b" 123456789".contains(&byte);
        cases.read(if allowed { 0 } else { 21 }, &line);
        let mut line = advance(20140101).into_bytes();
        line[42] = byte;
        cases.read(21, &line);
        line[42] = b'\n';
        line[30] = byte;
        cases.read(if byte == b' ' { 0 } else { 21 }, &line);
    }
    let mut line = advance(20140101).into_bytes();
    for byte in [0, 9, 11, 12, 13, 26, 138, 255] {
        line[42] = byte;
        cases.read(21, &line);
    }
}

fn lengths(cases: &mut Cases) {
    for good in [
        open(20140101, 365, 2_000, 100),
        finance(1, ALL),
        advance(20140101),
        rate(20140101, 0),
        transfer(1, 2, 3),
        settle(4),
        end(5),
    ] {
        cases.read(0, &good);
        cases.read(21, &good[..42]);
        cases.read(21, &good[1..]);
        cases.read(21, good.clone() + "\n");
        cases.read(21, good.clone() + " ");
        cases.read(21, good.replace('\n', "\r\n"));
        cases.read(21, good.replace('\n', " \n"));
        cases.read(21, good.replacen("  ", " ", 1));
        cases.read(21, good.replacen("  ", "   ", 1));
        cases.read(21, " ".to_string() + &good[..42]);
    }
    cases.read(21, "");
    for text in ["\n", "S", "S\n", "S0", "S0\n", "S 0\n", "E        0\n"] {
        cases.read(21, text);
    }
    cases.read(21, " ".repeat(42) + "\n");
    cases.read(21, " ".repeat(43));
    cases.read(21, "\n".repeat(43));
    cases.read(21, settle(1) + &settle(2));
    cases.read(21, filled(43));
}
