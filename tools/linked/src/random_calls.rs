//! Random inputs for the exported functions.

use reference::calendar::{Calendar, FIRST, LAST};
use reference::line::{self, Fields, LENGTH};
use reference::order_text::PAPER;
use reference::random::Random;
use reference::random_files;

use crate::call::{Call, Lent, Room};
use crate::damage;
use crate::exported::STATEMENT_BYTES;
use crate::files;

const LETTERS: &[u8; 7] = b"OFDRTSE";

/// The highest date field, first or second number, and third number.
const WIDEST: [u64; 4] = [99_999_999, 999_999_999, 999_999_999, 999_999_999_999_999];

/// What is made once for all calls.
pub struct Author {
    longest: Vec<u8>,
}

impl Author {
    pub fn new() -> Self {
        Author {
            longest: files::longest(),
        }
    }

    /// The call of a number: always the same for the same seed.
    pub fn call(&self, seed: u64, number: u64) -> Call {
        let random = &mut Random::seeded(seed, number);
        match random.below(20) {
            0..=2 => Call::Check {
                file: self.file(random),
            },
            3..=5 => Call::Statement {
                file: self.file(random),
                room: statement_room(random),
            },
            6..=9 => {
                let line = if random.one_in(2) {
                    good_line(random)
                } else {
                    any_line(random)
                };
                Call::ReadLine {
                    line: lent(random, &line),
                }
            }
            10..=13 => Call::WriteLine {
                fields: if random.one_in(2) {
                    good_fields(random)
                } else {
                    any_fields(random)
                },
                room: line_room(random),
            },
            14..=16 => Call::DailyRate {
                annual: annual(random),
            },
            _ => {
                let date = date(random);
                Call::PlusDays {
                    date,
                    days: days(random, date),
                }
            }
        }
    }

    /// Valid and damaged, of no byte to more than 65,536.
    fn file(&self, random: &mut Random) -> Lent {
        let file = match random.below(40) {
            0 => damaged(random, &self.longest),
            1 => bytes(random, 100),
            2 => bytes(random, 5).repeat(random.below(200) as usize),
            3..=10 => damaged(random, PAPER.as_bytes()),
            11..=13 => damaged(random, &files::months(1)),
            _ => random_files::any(random),
        };
        lent(random, &file)
    }
}

fn damaged(random: &mut Random, file: &[u8]) -> Vec<u8> {
    match random.below(6) {
        0 => damage::cut(random, file),
        1 => damage::flipped(random, file),
        2 => damage::inserted(random, file),
        3 => damage::deleted(random, file),
        4 => {
            let count = files::line_count(file) - 1;
            let count = random.pick(&[0, count - 1, count, count + 1]);
            damage::recounted(file, count)
        }
        _ => [file, &bytes(random, 50)].concat(),
    }
}

/// Up to so many bytes that lines are made of, or any.
fn bytes(random: &mut Random, most: u64) -> Vec<u8> {
    let any = random.one_in(4);
    let length = random.below(most + 1);
    (0..length)
        .map(|_| match any {
            true => random.below(256) as u8,
            false => random.pick(b"   0123456789\nOFDRTSE\r"),
        })
        .collect()
}

/// Between other bytes, at any alignment.
fn lent(random: &mut Random, part: &[u8]) -> Lent {
    let [before, after] = [b'0', b'\n'].map(|byte| [bytes(random, 16), vec![byte]].concat());
    Lent::new(before, part, after)
}

/// Often just long enough, or just not.
fn statement_room(random: &mut Random) -> Room {
    let longest = STATEMENT_BYTES as u64;
    let size = match random.below(8) {
        0 => random.below(100),
        1 => random.between(0, longest),
        2 | 3 => random.between(longest - 2, longest + 2),
        _ => random.between(longest, 4_000),
    };
    room(random, size)
}

fn line_room(random: &mut Random) -> Room {
    let length = LENGTH as u64;
    let size = match random.below(4) {
        0 => random.between(0, 100),
        1 => random.between(length - 2, length + 2),
        _ => random.between(length, 100),
    };
    room(random, size)
}

/// Filled with any bytes, and any around it.
fn room(random: &mut Random, size: u64) -> Room {
    let before = random.between(1, 16);
    let after = random.between(1, 16);
    let bytes = (0..before + size + after).map(|_| random.below(256) as u8);
    Room {
        bytes: bytes.collect(),
        start: before as usize,
        end: (before + size) as usize,
    }
}

/// Fields of a line.
pub fn good_fields(random: &mut Random) -> Fields {
    let letter = random.pick(LETTERS);
    let numbers = WIDEST.map(|widest| match random.below(8) {
        0 => 0,
        1 => widest,
        _ => random.of_any_size(widest),
    });
    fields(letter, only_used(letter, numbers))
}

/// Fields of which one or all may be at the edge of their columns or beyond, and
/// the letter may be none.
pub fn any_fields(random: &mut Random) -> Fields {
    let letter = match random.below(4) {
        0 => random.below(256) as u8,
        _ => random.pick(LETTERS),
    };
    let most = [u32::MAX.into(), u32::MAX.into(), u32::MAX.into(), u64::MAX];
    let mut numbers = [0, 1, 2, 3].map(|field| {
        let widest = WIDEST[field];
        let edge = random.pick(&[0, 1, widest - 1, widest, widest + 1, most[field]]);
        let within = random.of_any_size(widest);
        let any = random.of_any_size(most[field]);
        random.pick(&[edge, within, any])
    });
    if random.one_in(2) {
        let kept = random.below(4) as usize;
        let one = numbers[kept];
        numbers = only_used(letter, numbers);
        numbers[kept] = one;
    }
    fields(letter, numbers)
}

fn fields(letter: u8, [date, first, second, third]: [u64; 4]) -> Fields {
    Fields {
        letter,
        date: date as u32,
        first: first as u32,
        second: second as u32,
        third,
    }
}

fn only_used(letter: u8, [date, first, second, third]: [u64; 4]) -> [u64; 4] {
    match letter {
        b'F' => [0, first, 0, third],
        b'D' => [date, 0, 0, 0],
        b'R' => [date, 0, 0, third],
        b'T' => [0, first, second, third],
        b'S' | b'E' => [0, 0, 0, third],
        _ => [date, first, second, third],
    }
}

pub fn good_line(random: &mut Random) -> Vec<u8> {
    let mut line = vec![0; LENGTH];
    line::write(&good_fields(random), &mut line).expect("fields of a line");
    line
}

/// A line with damage, or other bytes.
pub fn any_line(random: &mut Random) -> Vec<u8> {
    let mut line = good_line(random);
    match random.below(8) {
        0 => damage::cut(random, &line),
        1 => damage::flipped(random, &line),
        2 => damage::inserted(random, &line),
        3 => damage::deleted(random, &line),
        4 => {
            // A letter whose fields are others.
            line[0] = random.pick(LETTERS);
            line
        }
        5 => {
            let place = random.between(1, 41) as usize;
            line[place] = random.pick(b" 0123456789\n-+");
            line
        }
        6 => {
            // A number of any width, with or without leading zeros.
            let start = random.pick(&[1, 9, 18, 27]) as usize;
            let fill = random.pick(b" 0");
            line[start..start + random.between(1, 8) as usize].fill(fill);
            line
        }
        _ => bytes(random, 60),
    }
}

fn annual(random: &mut Random) -> u64 {
    match random.below(8) {
        0..=4 => random.between(0, 4_000),
        5 => random.between(3_990, 4_010),
        6 => random.pick(&[0, 1 << 32, (1 << 32) + 2_000, u64::MAX - 1, u64::MAX]),
        _ => random.of_any_size(u64::MAX),
    }
}

/// A date, one at the calendar's ends, one that only looks like a date, or any
/// number.
fn date(random: &mut Random) -> u32 {
    let calendar = Calendar::gregorian();
    let last_day = u64::from(calendar.day_count(LAST).expect("a date"));
    let days = match random.below(4) {
        0 => random.below(40),
        1 => last_day - random.below(40),
        _ => random.between(0, last_day),
    };
    let date = calendar.plus_days(FIRST, days as u32).expect("a date");
    match random.below(8) {
        0 => {
            let year = random.between(1_999, 2_200) as u32;
            let month = random.below(14) as u32;
            year * 10_000 + month * 100 + random.pick(&[0, 1, 28, 29, 30, 31, 32, 99])
        }
        1 => random.of_any_size(u32::MAX.into()) as u32,
        2 => random.pick(&[0, FIRST - 1, FIRST, LAST, LAST + 1, u32::MAX]),
        _ => date,
    }
}

/// Up to the calendar's end, just beyond it, or any number.
fn days(random: &mut Random, date: u32) -> u32 {
    let left = Calendar::gregorian().days_between(date, LAST).unwrap_or(0) as u64;
    let days = match random.below(8) {
        0 => 0,
        1 => left,
        2 => left + 1,
        3 => random.of_any_size(u32::MAX.into()),
        4 => u32::MAX.into(),
        5 => random.below(800),
        _ => random.between(0, left),
    };
    days as u32
}
