//! A call of an exported function as data, and what the archive and the
//! reference answer to it.

use std::hint::black_box;

use reference::book::Book;
use reference::calendar::Calendar;
use reference::file::load;
use reference::line::{self, Fields};
use reference::refusal::Refusal;
use reference::{rates, statement};

use crate::exported;

#[derive(Clone, Debug)]
pub enum Call {
    Check { file: Lent },
    Statement { file: Lent, room: Room },
    ReadLine { line: Lent },
    WriteLine { fields: Fields, room: Room },
    DailyRate { annual: u64 },
    PlusDays { date: u32, days: u32 },
}

/// Bytes that are read, between others that are not to be.
#[derive(Clone, Debug, PartialEq, Eq)]
pub struct Lent {
    bytes: Vec<u8>,
    start: usize,
    end: usize,
}

impl Lent {
    pub fn new(before: Vec<u8>, part: &[u8], after: Vec<u8>) -> Self {
        let start = before.len();
        Lent {
            bytes: [&before[..], part, &after].concat(),
            start,
            end: start + part.len(),
        }
    }

    pub fn part(&self) -> &[u8] {
        &self.bytes[self.start..self.end]
    }
}

/// A buffer that is written, and bytes around it that are not to be.
#[derive(Clone, Debug)]
pub struct Room {
    pub bytes: Vec<u8>,
    pub start: usize,
    pub end: usize,
}

impl Room {
    fn part(&mut self) -> &mut [u8] {
        &mut self.bytes[self.start..self.end]
    }
}

/// All that a call can be seen to do.
#[derive(Clone, Debug, PartialEq, Eq)]
pub struct Answer {
    pub number: u32,
    /// The result slots in their order.
    pub slots: Vec<u64>,
    /// The buffer afterwards, with the bytes around it.
    pub buffer: Vec<u8>,
    /// Whether the bytes beside the slots and those that were lent stayed.
    pub rest_kept: bool,
}

impl Answer {
    fn new(number: u32, slots: Vec<u64>) -> Self {
        Answer {
            number,
            slots,
            buffer: Vec::new(),
            rest_kept: true,
        }
    }
}

impl Call {
    /// The exported function's name.
    pub fn name(&self) -> &'static str {
        match self {
            Call::Check { .. } => "taborumbra_check",
            Call::Statement { .. } => "taborumbra_statement",
            Call::ReadLine { .. } => "taborumbra_read_line",
            Call::WriteLine { .. } => "taborumbra_write_line",
            Call::DailyRate { .. } => "taborumbra_daily_rate",
            Call::PlusDays { .. } => "taborumbra_plus_days",
        }
    }

    /// The archive's answer.
    pub fn ours(&self) -> Answer {
        match self {
            Call::Check { file } => our_check(file),
            Call::Statement { file, room } => our_statement(file, room.clone()),
            Call::ReadLine { line } => our_read_line(line),
            Call::WriteLine { fields, room } => our_write_line(fields, room.clone()),
            Call::DailyRate { annual } => our_daily_rate(*annual),
            Call::PlusDays { date, days } => our_plus_days(*date, *days),
        }
    }

    /// What it must be, by the reference.
    pub fn expected(&self) -> Answer {
        match self {
            Call::Check { file } => expected_check(file),
            Call::Statement { file, room } => expected_statement(file, room.clone()),
            Call::ReadLine { line } => expected_read_line(line),
            Call::WriteLine { fields, room } => expected_write_line(fields, room.clone()),
            Call::DailyRate { annual } => one_slot(rates::daily(*annual)),
            Call::PlusDays { date, days } => {
                let sum = Calendar::gregorian().plus_days(*date, *days);
                one_slot(sum.map(u64::from))
            }
        }
    }
}

// Bytes are lent as they are, so that several threads lend the same ones. Whether
// they stayed is seen by a copy that was made before.

fn our_check(file: &Lent) -> Answer {
    let before = file.clone();
    let mut slots = [Slot::<usize>::new(); 4];
    let [line, start, end, count] = &mut slots;
    let number = exported::check(
        file.part(),
        &mut line.value,
        &mut start.value,
        &mut end.value,
        &mut count.value,
    );
    let values = slots.map(|slot| slot.value as u64);
    Answer {
        rest_kept: slots.iter().all(Slot::kept) && *black_box(file) == before,
        ..Answer::new(number, values.to_vec())
    }
}

fn our_statement(file: &Lent, mut room: Room) -> Answer {
    let before = file.clone();
    let mut length = Slot::<usize>::new();
    let number = exported::statement(file.part(), room.part(), &mut length.value);
    Answer {
        buffer: room.bytes,
        rest_kept: length.kept() && *black_box(file) == before,
        ..Answer::new(number, vec![length.value as u64])
    }
}

fn our_read_line(line: &Lent) -> Answer {
    let before = line.clone();
    let mut letter = Slot::<u8>::new();
    let [mut date, mut first, mut second] = [Slot::<u32>::new(); 3];
    let mut third = Slot::<u64>::new();
    let number = exported::read_line(
        line.part(),
        &mut letter.value,
        &mut date.value,
        &mut first.value,
        &mut second.value,
        &mut third.value,
    );
    let values = vec![
        letter.value.into(),
        date.value.into(),
        first.value.into(),
        second.value.into(),
        third.value,
    ];
    let slots_kept = letter.kept() && [date, first, second].iter().all(Slot::kept) && third.kept();
    Answer {
        rest_kept: slots_kept && *black_box(line) == before,
        ..Answer::new(number, values)
    }
}

fn our_write_line(fields: &Fields, mut room: Room) -> Answer {
    let Fields {
        letter,
        date,
        first,
        second,
        third,
    } = *fields;
    let number = exported::write_line(letter, date, first, second, third, room.part());
    Answer {
        buffer: room.bytes,
        ..Answer::new(number, Vec::new())
    }
}

fn our_daily_rate(annual: u64) -> Answer {
    let mut daily = Slot::<u64>::new();
    let number = exported::daily_rate(annual, &mut daily.value);
    Answer {
        rest_kept: daily.kept(),
        ..Answer::new(number, vec![daily.value])
    }
}

fn our_plus_days(date: u32, days: u32) -> Answer {
    let mut sum = Slot::<u32>::new();
    let number = exported::plus_days(date, days, &mut sum.value);
    Answer {
        rest_kept: sum.kept(),
        ..Answer::new(number, vec![sum.value.into()])
    }
}

fn expected_check(file: &Lent) -> Answer {
    match load(&mut Book::empty(), file.part()) {
        Ok(loaded) => {
            let [start, end] = [loaded.part.start, loaded.part.end].map(|at| at as u64);
            Answer::new(0, vec![0, start, end, loaded.count])
        }
        Err(fault) => {
            let [start, end] = [fault.part.start, fault.part.end].map(|at| at as u64);
            Answer::new(fault.refusal.number(), vec![fault.line, start, end, 0])
        }
    }
}

fn expected_statement(file: &Lent, mut room: Room) -> Answer {
    let written = statement::write(file.part(), room.part());
    Answer {
        buffer: room.bytes,
        ..one_slot(written.map(|length| length as u64))
    }
}

fn expected_read_line(line: &Lent) -> Answer {
    match line::read(line.part()) {
        Ok(fields) => {
            let [letter, date] = [fields.letter.into(), fields.date.into()];
            let [first, second] = [fields.first, fields.second].map(u64::from);
            Answer::new(0, vec![letter, date, first, second, fields.third])
        }
        Err(refusal) => Answer::new(refusal.number(), vec![0; 5]),
    }
}

fn expected_write_line(fields: &Fields, mut room: Room) -> Answer {
    let number = match line::write(fields, room.part()) {
        Ok(()) => 0,
        Err(refusal) => refusal.number(),
    };
    Answer {
        buffer: room.bytes,
        ..Answer::new(number, Vec::new())
    }
}

fn one_slot(result: Result<u64, Refusal>) -> Answer {
    match result {
        Ok(value) => Answer::new(0, vec![value]),
        Err(refusal) => Answer::new(refusal.number(), vec![0]),
    }
}

/// A result slot that holds something else before the call, and bytes around it.
#[derive(Clone, Copy)]
#[repr(C)]
struct Slot<T> {
    before: [u8; 8],
    value: T,
    after: [u8; 8],
}

const BESIDE: [u8; 8] = *b"\xa5beside\x5a";

impl<T: Garbage> Slot<T> {
    fn new() -> Self {
        Slot {
            before: BESIDE,
            value: T::GARBAGE,
            after: BESIDE,
        }
    }
}

impl<T> Slot<T> {
    fn kept(&self) -> bool {
        black_box(self.before) == BESIDE && black_box(self.after) == BESIDE
    }
}

/// A value that no call answers.
trait Garbage {
    const GARBAGE: Self;
}

impl Garbage for u8 {
    const GARBAGE: Self = 0xa5;
}

impl Garbage for u32 {
    const GARBAGE: Self = 0xa5a5_a5a5;
}

impl Garbage for u64 {
    const GARBAGE: Self = 0xa5a5_a5a5_a5a5_a5a5;
}

impl Garbage for usize {
    const GARBAGE: Self = 0xa5a5_a5a5_a5a5_a5a5;
}

#[cfg(test)]
mod tests {
    use super::*;

    #[test]
    fn a_byte_beside_a_slot() {
        let slot = Slot::<u8>::new();
        assert!(Slot { value: 0, ..slot }.kept());
        for place in 0..8 {
            let mut other = slot;
            other.before[place] ^= 1;
            assert!(!other.kept());
            let mut other = slot;
            other.after[place] ^= 1;
            assert!(!other.kept());
        }
    }

    #[test]
    fn a_byte_that_is_lent_or_beside() {
        let lent = Lent::new(vec![1], &[2, 3], vec![4]);
        assert_eq!(lent.part(), [2, 3]);
        for place in 0..4 {
            let mut other = lent.clone();
            other.bytes[place] ^= 1;
            assert_ne!(other, lent);
        }
    }
}
