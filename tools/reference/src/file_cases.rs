//! The cases of the vectors about the order file. Each load is given with the
//! number and the line that it must answer, worked out by hand. Only files with
//! changed digits or damaged at random have none; lives at random have those of
//! their calls.

mod damage;
mod ends;
mod form;
mod lines;
mod lives;
mod longest;
mod openings;
mod orders;

use crate::book::Book;
use crate::file::load;
use crate::file_calls::{filled, number, FileCall};
use crate::line::{read, write, Fields, LENGTH};
use crate::order_text::*;

pub use longest::longest;

/// The number and the line of a load.
type Answer = (u32, u64);

const ACCEPTED: Answer = (0, 0);

pub fn file_cases() -> Vec<FileCall> {
    let mut cases = Cases {
        calls: Vec::new(),
        book: Book::empty(),
    };
    cases.fresh(ACCEPTED, PAPER);
    lines::cases(&mut cases);
    form::cases(&mut cases);
    openings::cases(&mut cases);
    ends::cases(&mut cases);
    orders::cases(&mut cases);
    damage::cases(&mut cases);
    lives::cases(&mut cases);
    cases.calls
}

/// The cases while they are put together, and the book they lead to.
struct Cases {
    calls: Vec<FileCall>,
    book: Book,
}

impl Cases {
    /// A new empty book, unless the one at hand is empty.
    fn empty(&mut self) {
        if self.book != Book::empty() {
            self.book = Book::empty();
            self.calls.push(FileCall::Empty);
        }
    }

    /// A load that may answer anything.
    fn any(&mut self, file: &[u8]) -> Answer {
        let answer = load(&mut self.book, file);
        self.calls.push(FileCall::Load(file.to_vec()));
        answer.map_or_else(|fault| (fault.refusal.number(), fault.line), |_| ACCEPTED)
    }

    /// A load that must answer this.
    fn load(&mut self, expected: Answer, file: impl AsRef<[u8]>) {
        let file = file.as_ref();
        let answer = self.any(file);
        assert_eq!(answer, expected, "{}", String::from_utf8_lossy(file));
    }

    /// The same on an empty book.
    fn fresh(&mut self, expected: Answer, file: impl AsRef<[u8]>) {
        self.empty();
        self.load(expected, file);
    }

    fn read(&mut self, expected: u32, line: impl AsRef<[u8]>) {
        let line = line.as_ref();
        let text = String::from_utf8_lossy(line);
        assert_eq!(number(&read(line)), expected, "{text:?}");
        self.calls.push(FileCall::Read(line.to_vec()));
    }

    /// A refusal leaves the whole buffer, a line the bytes behind it.
    fn write(&mut self, expected: u32, fields: Fields, size: usize) {
        let mut buffer = filled(size);
        let answer = write(&fields, &mut buffer);
        assert_eq!(number(&answer), expected, "{fields:?} {size}");
        let used = if expected == 0 { LENGTH } else { 0 };
        assert_eq!(buffer[used..], filled(size)[used..], "{fields:?} {size}");
        self.calls.push(FileCall::Write { fields, size });
    }
}

#[cfg(test)]
mod tests {
    use super::*;
    use crate::file::{Fault, Loaded};
    use std::collections::BTreeSet;

    fn loads() -> Vec<(Book, Vec<u8>)> {
        let mut book = Book::empty();
        let mut loads = Vec::new();
        for call in file_cases() {
            if let FileCall::Load(file) = &call {
                loads.push((book.clone(), file.clone()));
            }
            call.answer_lines(&mut book);
        }
        loads
    }

    /// The part of a refusal, its count and the book follow from the line: lines
    /// found by splitting the file.
    #[test]
    fn parts_counts_and_books() {
        for (before, file) in loads() {
            let mut after = before.clone();
            let lines: Vec<&[u8]> = file.split_inclusive(|&byte| byte == b'\n').collect();
            match load(&mut after, &file) {
                Ok(Loaded { count, part }) => {
                    assert_eq!(count, lines.len() as u64 - 1);
                    assert_eq!(part, file.len()..file.len());
                }
                Err(Fault { line, part, .. }) => {
                    assert_eq!(after, before);
                    let place = line as usize - 1;
                    let start = lines[..place].iter().map(|line| line.len()).sum();
                    let expected = lines.get(place).copied().unwrap_or_default();
                    assert_eq!(part.start, start);
                    assert_eq!(&file[part], expected);
                }
            }
        }
    }

    /// By the letter of the refused line; 0 if that is the empty part.
    #[test]
    fn every_refusal_of_every_letter() {
        let mut seen = BTreeSet::new();
        for (mut book, file) in loads() {
            if let Err(fault) = load(&mut book, &file) {
                let letter = file.get(fault.part.start).copied().unwrap_or(0);
                seen.insert((letter, fault.refusal.number()));
            }
        }
        for (letter, numbers) in [
            (b'O', &[2, 3, 4, 5, 6, 7, 21, 22][..]),
            (b'F', &[7, 21, 22]),
            (b'D', &[1, 3, 8, 9, 21, 22]),
            (b'R', &[1, 3, 6, 8, 12, 14, 21]),
            (b'T', &[1, 10, 11, 12, 21]),
            (b'S', &[1, 5, 12, 13, 14, 21, 22]),
            (b'E', &[21, 22]),
            (b'\n', &[21, 22]),
            (0, &[20, 21, 22]),
        ] {
            for &number in numbers {
                let refusal = (letter, number);
                assert!(seen.contains(&refusal), "{refusal:?}");
            }
        }
    }

    #[test]
    fn as_many_as_they_should_be() {
        let count = loads().len();
        assert!((900..=1_000).contains(&count), "{count}");
        for call in file_cases() {
            if let FileCall::Write { size, .. } = call {
                assert!(size <= 100);
            }
        }
    }
}
