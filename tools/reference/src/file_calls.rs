//! The cases of the order file as data: their bytes in the vectors, and their
//! answers.

use crate::book::Book;
use crate::calls::Call;
use crate::file::{load, Fault, Loaded};
use crate::line::{read, write, Fields};
use crate::refusal::Refusal;

#[derive(Clone, Debug)]
pub enum FileCall {
    /// A new empty book takes the old one's place.
    Empty,
    /// The book goes on with what the load gives back.
    Load(Vec<u8>),
    /// A line is written into a buffer of so many bytes.
    Write { fields: Fields, size: usize },
    /// The bytes are read as one line.
    Read(Vec<u8>),
}

impl FileCall {
    /// The case's line; after a load's or a read line's come the bytes and a
    /// line feed.
    pub fn put(&self, input: &mut Vec<u8>) {
        let (line, bytes) = match self {
            FileCall::Empty => ("0".to_string(), None),
            FileCall::Load(file) => (format!("1 {}", file.len()), Some(file)),
            FileCall::Write { fields, size } => {
                let Fields {
                    letter,
                    date,
                    first,
                    second,
                    third,
                } = fields;
                let line = format!("2 {letter} {date} {first} {second} {third} {size}");
                (line, None)
            }
            FileCall::Read(line) => (format!("3 {}", line.len()), Some(line)),
        };
        input.extend(line.bytes());
        input.push(b'\n');
        if let Some(bytes) = bytes {
            input.extend(bytes);
            input.push(b'\n');
        }
    }

    /// The answer's line; after a load's come those of the book.
    pub fn answer_lines(&self, book: &mut Book) -> Vec<String> {
        match self {
            FileCall::Empty => {
                *book = Book::empty();
                vec!["0".to_string()]
            }
            FileCall::Load(file) => {
                let answer = load(book, file);
                let mut lines = vec![load_line(file, &answer)];
                lines.extend(book_lines(book));
                lines
            }
            FileCall::Write { fields, size } => {
                let mut buffer = filled(*size);
                let answer = write(fields, &mut buffer);
                let digest = digest(&buffer);
                vec![format!("{} {digest}", number(&answer))]
            }
            FileCall::Read(line) => vec![read_line(line)],
        }
    }
}

pub fn number<T>(answer: &Result<T, Refusal>) -> u32 {
    answer
        .as_ref()
        .map_or_else(|refusal| refusal.number(), |_| 0)
}

/// `NUMBER LINE COUNT START END DIGEST`
fn load_line(file: &[u8], answer: &Result<Loaded, Fault>) -> String {
    let (number, line, count, part) = match answer {
        Ok(Loaded { count, part }) => (0, 0, *count, part),
        Err(Fault {
            refusal,
            line,
            part,
        }) => (refusal.number(), *line, 0, part),
    };
    let digest = digest(&file[part.clone()]);
    format!(
        "{number} {line} {count} {} {} {digest}",
        part.start, part.end
    )
}

/// The totals, the number of positions and each of them.
fn book_lines(book: &Book) -> Vec<String> {
    let totals = Call::Totals.run(&mut book.clone());
    let positions = book.positions().unwrap_or_default();
    let mut lines = vec![
        Call::Totals.answer_line(&totals),
        positions.len().to_string(),
    ];
    for position in positions {
        lines.push(format!(
            "{} {} {} {}",
            position.holder, position.share.0, position.unit_days.0, position.received.0
        ));
    }
    lines
}

/// `NUMBER LETTER DATE FIRST SECOND THIRD`
fn read_line(line: &[u8]) -> String {
    let answer = read(line);
    let number = number(&answer);
    match answer {
        Ok(fields) => format!(
            "{number} {} {} {} {} {}",
            fields.letter, fields.date, fields.first, fields.second, fields.third
        ),
        Err(_) => format!("{number} 0 0 0 0 0"),
    }
}

/// A buffer before a line is written into it: 35, 36, 37 and so on.
pub fn filled(size: usize) -> Vec<u8> {
    (0..size).map(|place| 35 + (place % 90) as u8).collect()
}

pub fn digest(bytes: &[u8]) -> u64 {
    bytes.iter().fold(bytes.len() as u64, |digest, &byte| {
        (digest * 31 + u64::from(byte)) % 4_294_967_291
    })
}

#[cfg(test)]
mod tests {
    use super::*;

    #[test]
    fn digests() {
        assert_eq!(digest(b""), 0);
        assert_eq!(digest(b"\n"), 31 + 10);
        assert_eq!(digest(b"AB"), (2 * 31 + 65) * 31 + 66);
        assert_eq!(digest(&[255; 8]), {
            let mut digest = 8_u128;
            for _ in 0..8 {
                digest = digest * 31 + 255;
            }
            (digest % 4_294_967_291) as u64
        });
    }

    #[test]
    fn buffers() {
        assert_eq!(filled(3), [35, 36, 37]);
        let longest = filled(100);
        assert_eq!(longest[88..92], [123, 124, 35, 36]);
    }

    /// The paper's O and F lines and an E line, then one F line.
    #[test]
    fn cases_and_answers_as_printed() {
        const O: &str = "O20140101       30     2000            100\n";
        const F: &str = "F                1                 1000000\n";
        const E: &str = "E                                        2\n";
        let fields = Fields {
            letter: b'F',
            date: 0,
            first: 1,
            second: 0,
            third: 1_000_000,
        };
        let whole = [O, F, E].concat();
        let calls = [
            (FileCall::Empty, "0\n".to_string(), "0"),
            (
                FileCall::Load(whole.clone().into()),
                format!("1 129\n{whole}\n"),
                "0 0 2 129 129 0\n0 20140101 100 0 0 0 0\n1\n1 1000000 0 0",
            ),
            (
                FileCall::Load("\n".into()),
                "1 1\n\n\n".to_string(),
                "21 1 0 0 1 41\n0 20140101 100 0 0 0 0\n1\n1 1000000 0 0",
            ),
            (FileCall::Empty, "0\n".to_string(), "0"),
            (
                FileCall::Load(Vec::new()),
                "1 0\n\n".to_string(),
                "20 1 0 0 0 0\n1 0 0 0 0 0 0\n0",
            ),
            (
                FileCall::Read(F.into()),
                format!("3 43\n{F}\n"),
                "0 70 0 1 0 1000000",
            ),
            (
                FileCall::Read("F".into()),
                "3 1\nF\n".to_string(),
                "21 0 0 0 0 0",
            ),
            (
                FileCall::Write { fields, size: 2 },
                "2 70 0 1 0 1000000 2\n".to_string(),
                "21 3043", // (2 × 31 + 35) × 31 + 36
            ),
        ];
        let mut book = Book::empty();
        for (call, bytes, answer) in calls {
            let mut input = Vec::new();
            call.put(&mut input);
            assert_eq!(input, bytes.as_bytes());
            assert_eq!(call.answer_lines(&mut book).join("\n"), answer);
        }
        let written = FileCall::Write { fields, size: 43 };
        let expected = format!("0 {}", digest(F.as_bytes()));
        assert_eq!(written.answer_lines(&mut book), [expected]);
    }
}
