//! The statement (the paper's "Statement program"): what is printed about a file
//! loaded onto an empty book.

use std::io::{self, Read};

use crate::book::Book;
use crate::file::load;
use crate::refusal::Refusal;

/// The program takes no more bytes than these as its file.
pub const LONGEST_FILE: usize = 65_536;

/// With their line feeds.
const B_LINE: usize = 81;
const H_LINE: usize = 47;

/// The statement of a full book.
pub const LONGEST: usize = B_LINE + Book::POSITIONS * H_LINE;

/// The first bytes of the input, or all if fewer.
pub fn file_from(input: impl Read) -> io::Result<Vec<u8>> {
    let mut file = Vec::new();
    input.take(LONGEST_FILE as u64).read_to_end(&mut file)?;
    Ok(file)
}

/// The lines of the book that the file leaves, or the X line of its refusal.
pub fn statement(file: &[u8]) -> String {
    let mut book = Book::empty();
    match load(&mut book, file) {
        Ok(_) => of_book(&book),
        Err(fault) => format!("X{:>3}{:>9}\n", fault.refusal.number(), fault.line),
    }
}

/// The B line, and an H line for each position in book order. Nothing if the
/// book is empty.
pub fn of_book(book: &Book) -> String {
    let (Ok(totals), Ok(positions)) = (book.totals(), book.positions()) else {
        return String::new();
    };
    let mut lines = format!(
        "B{:>8}{:>15}{:>15}{:>11}{:>15}{:>15}\n",
        totals.today,
        totals.outstanding.0,
        totals.due.0,
        totals.fraction,
        totals.principal_paid.0,
        totals.interest_paid.0
    );
    for position in positions {
        lines += &format!(
            "H{:>9}{:>9}{:>12}{:>15}\n",
            position.holder, position.share.0, position.unit_days.0, position.received.0
        );
    }
    lines
}

/// Puts the statement at the buffer's start, leaves the rest, and answers its
/// length. A buffer without room for the longest is left whole.
pub fn write(file: &[u8], buffer: &mut [u8]) -> Result<usize, Refusal> {
    if buffer.len() < LONGEST {
        return Err(Refusal::Line);
    }
    let statement = statement(file);
    buffer[..statement.len()].copy_from_slice(statement.as_bytes());
    Ok(statement.len())
}

#[cfg(test)]
mod tests {
    use super::*;
    use crate::file_calls::filled;
    use crate::file_cases::longest;
    use crate::order_text::*;

    const E: &str = "E                                        0\n";

    /// The paper's file and its three lines.
    #[test]
    fn the_papers_example() {
        assert_eq!(
            statement(PAPER.as_bytes()),
            concat!(
                "B20140131              0              0 1627656000            100              0\n",
                "H        1   500000           0             67\n",
                "H        2   500000           0             33\n",
            )
        );
    }

    #[test]
    fn refusals() {
        assert_eq!(statement(b""), "X 20        1\n");
        assert_eq!(statement(b"\n"), "X 21        1\n");
        assert_eq!(statement(&PAPER.as_bytes()[..300]), "X 21        7\n");
        assert_eq!(statement(&PAPER.as_bytes()[..258]), "X 22        7\n");
        assert_eq!(statement(whole(settle(0)).as_bytes()), "X  1        1\n");
    }

    /// A count of other lines than none is refused.
    #[test]
    fn the_end_alone() {
        assert_eq!(statement(E.as_bytes()), "");
        assert_eq!(statement(E.replace('0', "1").as_bytes()), "X 22        1\n");
        assert_eq!(of_book(&Book::empty()), "");
    }

    /// The holder who sold everything has an H line.
    #[test]
    fn an_emptied_position() {
        let file = PAPER.replace(" 500000", "1000000");
        assert_eq!(
            statement(file.as_bytes()),
            concat!(
                "B20140131              0              0 1627656000            100              0\n",
                "H        1        0           0             33\n",
                "H        2  1000000           0             67\n",
            )
        );
    }

    /// Of the B line 81 bytes, of an H line 47, of an X line 14.
    #[test]
    fn widths() {
        let narrow = statement(PAPER.as_bytes());
        let wide = statement(&longest());
        for text in [&narrow, &wide] {
            let lengths: Vec<usize> = text.split_inclusive('\n').map(str::len).collect();
            assert_eq!(lengths[0], 81);
            assert!(lengths[1..].iter().all(|&length| length == 47));
        }
        assert_eq!(narrow.len(), 81 + 2 * 47);
        assert_eq!(wide.len(), 3_089);
        assert_eq!(LONGEST, 3_089);
        assert_eq!(statement(b"").len(), 14);
    }

    /// A file of 65,532 bytes is taken whole. Of a longer one the first 65,536 are
    /// taken, which end within line 1,525.
    #[test]
    fn no_more_than_the_first_bytes() {
        let longest = longest();
        assert_eq!(file_from(&longest[..]).unwrap(), longest);
        let orders = opened() + &(transfer(1, 2, 1) + &transfer(2, 1, 1)).repeat(800);
        let file = whole(orders);
        assert!(statement(file.as_bytes()).starts_with('B'));
        let taken = file_from(file.as_bytes()).unwrap();
        assert_eq!(taken, file.as_bytes()[..65_536]);
        assert_eq!(statement(&taken), "X 21     1525\n");
        assert_eq!(file_from(&b""[..]).unwrap(), b"");
    }

    #[test]
    fn buffers() {
        for size in [0, 1, 14, 3_088, 3_089, 3_090, 4_000] {
            for file in ["", E, PAPER] {
                let mut buffer = filled(size);
                let answer = write(file.as_bytes(), &mut buffer);
                let expected = statement(file.as_bytes());
                if size < 3_089 {
                    assert_eq!(answer, Err(Refusal::Line));
                    assert_eq!(buffer, filled(size));
                } else {
                    let length = expected.len();
                    assert_eq!(answer, Ok(length));
                    assert_eq!(&buffer[..length], expected.as_bytes());
                    assert_eq!(buffer[length..], filled(size)[length..]);
                }
            }
        }
    }
}
