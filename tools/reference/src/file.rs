//! The order file (the paper's "Order file"): its lines, and its load onto a
//! book. The first fault decides; the lines are read once, from first to last.

use std::ops::Range;

use crate::book::{Book, Cents, Parts};
use crate::line::{read, Fields};
use crate::refusal::Refusal;

/// What an accepted load answers.
#[derive(Clone, Debug, PartialEq, Eq)]
pub struct Loaded {
    /// Lines before E.
    pub count: u64,
    /// The empty part at the file's end.
    pub part: Range<usize>,
}

/// What a refused load answers.
#[derive(Clone, Debug, PartialEq, Eq)]
pub struct Fault {
    pub refusal: Refusal,
    /// Counted from 1.
    pub line: u64,
    /// That line of the file, or the empty part at its end.
    pub part: Range<usize>,
}

/// All of the file's orders take effect on the book, or on a refusal none.
pub fn load(book: &mut Book, file: &[u8]) -> Result<Loaded, Fault> {
    let mut after = book.clone();
    let loaded = run(&mut after, file)?;
    *book = after;
    Ok(loaded)
}

/// On a refusal some of the orders have taken effect.
fn run(book: &mut Book, file: &[u8]) -> Result<Loaded, Fault> {
    let mut reader = Reader::new(file);
    if file.is_empty() {
        return Err(reader.end().fault(Refusal::EmptyFile));
    }
    let mut waiting: Option<Opening> = None;
    while let Some(line) = reader.next() {
        let bytes = &file[line.start..line.end];
        if bytes[0] != b'F' {
            if let Some(opening) = waiting.take() {
                opening.run(book)?;
            }
        }
        let fields = read(bytes).map_err(|refusal| line.fault(refusal))?;
        let done = match fields.letter {
            b'O' => {
                waiting = Some(Opening::new(line, fields));
                Ok(())
            }
            b'F' => match &mut waiting {
                Some(opening) => opening.finance(fields.first, fields.third),
                None => Err(Refusal::Line),
            },
            b'D' => book.advance(fields.date).map(drop),
            b'R' => book.rate(fields.date, fields.third).map(drop),
            b'T' => {
                let parts = Parts(fields.third);
                book.transfer(fields.first, fields.second, parts).map(drop)
            }
            b'S' => book.settle(Cents(fields.third)).map(drop),
            b'E' => return reader.finish(line, fields.third),
            letter => unreachable!("a well-formed line of letter {letter}"),
        };
        done.map_err(|refusal| line.fault(refusal))?;
    }
    if let Some(opening) = waiting {
        opening.run(book)?;
    }
    Err(reader.end().fault(Refusal::Unfinished))
}

/// The reading position over a lent file; it moves line by line.
struct Reader<'a> {
    file: &'a [u8],
    position: usize,
    lines_read: u64,
}

/// A line's place in its file, the line feed included.
#[derive(Clone, Copy)]
struct Line {
    /// From 1.
    number: u64,
    start: usize,
    end: usize,
}

impl<'a> Reader<'a> {
    fn new(file: &'a [u8]) -> Self {
        Reader {
            file,
            position: 0,
            lines_read: 0,
        }
    }

    /// The line through the next line feed, or to the file's end if none
    /// follows; it is never empty.
    fn next(&mut self) -> Option<Line> {
        let rest = &self.file[self.position..];
        if rest.is_empty() {
            return None;
        }
        let line_feed = rest.iter().position(|&byte| byte == b'\n');
        let start = self.position;
        self.position = line_feed.map_or(self.file.len(), |place| start + place + 1);
        self.lines_read += 1;
        Some(Line {
            number: self.lines_read,
            start,
            end: self.position,
        })
    }

    /// The empty part at the file's end, which comes after the lines read.
    fn end(&self) -> Line {
        Line {
            number: self.lines_read + 1,
            start: self.file.len(),
            end: self.file.len(),
        }
    }

    /// After the E line: its count must be right, and nothing may follow.
    fn finish(mut self, line: Line, count: u64) -> Result<Loaded, Fault> {
        if count != line.number - 1 {
            return Err(line.fault(Refusal::Unfinished));
        }
        if let Some(next) = self.next() {
            return Err(next.fault(Refusal::Unfinished));
        }
        Ok(Loaded {
            count,
            part: line.end..line.end,
        })
    }
}

impl Line {
    fn fault(self, refusal: Refusal) -> Fault {
        Fault {
            refusal,
            line: self.number,
            part: self.start..self.end,
        }
    }
}

/// An O line that waits for the last of its F lines.
struct Opening {
    line: Line,
    fields: Fields,
    count: usize,
    holders: [u32; Book::POSITIONS],
    shares: [u32; Book::POSITIONS],
}

impl Opening {
    fn new(line: Line, fields: Fields) -> Self {
        Opening {
            line,
            fields,
            count: 0,
            holders: [0; Book::POSITIONS],
            shares: [0; Book::POSITIONS],
        }
    }

    /// Takes the numbers of an F line.
    fn finance(&mut self, holder: u32, share: u64) -> Result<(), Refusal> {
        if self.count == Book::POSITIONS {
            return Err(Refusal::Financing);
        }
        self.holders[self.count] = holder;
        // A share that doesn't fit is over the whole, and so is the highest.
        self.shares[self.count] = share.try_into().unwrap_or(u32::MAX);
        self.count += 1;
        Ok(())
    }

    fn run(&self, book: &mut Book) -> Result<(), Fault> {
        let opened = book.open(
            self.fields.date,
            self.fields.first,
            self.fields.second.into(),
            Cents(self.fields.third),
            &self.holders[..self.count],
            &self.shares[..self.count],
        );
        opened.map_err(|refusal| self.line.fault(refusal))
    }
}

#[cfg(test)]
mod tests;
