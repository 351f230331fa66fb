//! The cases of the vectors about the statement: a file and the size of a buffer
//! each. Most are given with the text of the statement that they must have, worked
//! out apart from this program; only files at random have none.

mod damage;
mod dates;
mod fields;
mod positions;
mod rates;
mod refusals;
mod sizes;

use crate::file_calls::{digest, filled, number};
use crate::order_text::*;
use crate::statement::{self, statement, LONGEST};

pub struct ReportCase {
    /// Of the buffer that the statement is written into.
    pub size: usize,
    pub file: Vec<u8>,
    /// Its statement, if given.
    stated: Option<String>,
}

pub fn report_cases() -> Vec<ReportCase> {
    let mut cases = Cases(Vec::new());
    cases.stated(
        PAPER,
        &[
            "B20140131              0              0 1627656000            100              0",
            "H        1   500000           0             67",
            "H        2   500000           0             33",
        ],
    );
    refusals::cases(&mut cases);
    fields::cases(&mut cases);
    dates::cases(&mut cases);
    positions::cases(&mut cases);
    rates::cases(&mut cases);
    sizes::cases(&mut cases);
    damage::cases(&mut cases);
    cases.0.iter().for_each(ReportCase::check);
    cases.0
}

impl ReportCase {
    fn check(&self) {
        if let Some(stated) = &self.stated {
            let text = String::from_utf8_lossy(&self.file);
            assert_eq!(&statement(&self.file), stated, "{text}");
        }
    }

    /// `SIZE LENGTH`, the file's bytes and a line feed.
    pub fn put(&self, input: &mut Vec<u8>) {
        input.extend(format!("{} {}\n", self.size, self.file.len()).bytes());
        input.extend(&self.file);
        input.push(b'\n');
    }

    /// `NUMBER LENGTH DIGEST` and the statement's bytes.
    pub fn put_answer(&self, output: &mut Vec<u8>) {
        let mut buffer = filled(self.size);
        let answer = statement::write(&self.file, &mut buffer);
        let number = number(&answer);
        let length = answer.unwrap_or(0);
        output.extend(format!("{number} {length} {}\n", digest(&buffer)).bytes());
        output.extend(&buffer[..length]);
    }
}

/// The cases while they are put together.
struct Cases(Vec<ReportCase>);

impl Cases {
    /// A file that must have a statement of these lines, in a buffer with room.
    fn stated(&mut self, file: impl AsRef<[u8]>, lines: &[&str]) {
        let size = self.next_size();
        self.sized(size, file, lines);
    }

    /// The same in a buffer of this size.
    fn sized(&mut self, size: usize, file: impl AsRef<[u8]>, lines: &[&str]) {
        let stated = lines.iter().map(|line| format!("{line}\n"));
        self.0.push(ReportCase {
            size,
            file: file.as_ref().to_vec(),
            stated: Some(stated.collect()),
        });
    }

    /// A file that may have any statement.
    fn any(&mut self, file: Vec<u8>) {
        self.0.push(ReportCase {
            size: self.next_size(),
            file,
            stated: None,
        });
    }

    /// Other sizes for other cases, from the least with room up to 4,000.
    fn next_size(&self) -> usize {
        LONGEST + self.0.len() * 37 % 912
    }
}

#[cfg(test)]
mod tests {
    use super::*;
    use crate::statement::LONGEST_FILE;
    use std::collections::{BTreeMap, BTreeSet};

    #[test]
    fn as_stated() {
        let cases = report_cases();
        assert!((300..=500).contains(&cases.len()), "{}", cases.len());
        let stated = cases.iter().filter(|case| case.stated.is_some());
        assert!(stated.clone().count() >= 400);
        stated.for_each(ReportCase::check);
    }

    /// Another statement than the right one is noticed.
    #[test]
    #[should_panic]
    fn a_wrong_statement() {
        let mut cases = Cases(Vec::new());
        cases.stated("", &["X 20       1"]);
        cases.0[0].check();
    }

    #[test]
    fn within_the_program_and_the_format() {
        for case in report_cases() {
            assert!(case.size <= 4_000);
            assert!(case.file.len() <= LONGEST_FILE);
        }
    }

    /// By the digits of the line; only the O line can be refused with 4.
    #[test]
    fn every_refusal_as_an_x_line() {
        let mut digits: BTreeMap<String, BTreeSet<usize>> = BTreeMap::new();
        for case in report_cases() {
            let text = statement(&case.file);
            if let Some(numbers) = text.strip_prefix('X') {
                let (number, line) = numbers.split_at(3);
                let seen = digits.entry(number.trim().to_string()).or_default();
                seen.insert(line.trim().len());
            }
        }
        for (number, expected) in [
            ("1", &[1][..]),
            ("2", &[1, 2, 3]),
            ("3", &[1, 2]),
            ("4", &[1]),
            ("5", &[1, 2]),
            ("6", &[1, 2]),
            ("7", &[1, 2, 3]),
            ("8", &[1, 2]),
            ("9", &[1, 2]),
            ("10", &[1, 2]),
            ("11", &[1, 2, 3]),
            ("12", &[2]),
            ("13", &[1, 2]),
            ("14", &[1, 2]),
            ("20", &[1]),
            ("21", &[1, 2, 3]),
            ("22", &[1, 2, 3, 4]),
        ] {
            for width in expected {
                assert!(digits[number].contains(width), "{number} {width}");
            }
        }
    }

    /// Widths of every field of the B and H lines.
    #[test]
    fn every_width() {
        const B: [usize; 6] = [8, 15, 15, 11, 15, 15];
        const H: [usize; 4] = [9, 9, 12, 15];
        let mut seen = BTreeSet::new();
        for case in report_cases() {
            for line in statement(&case.file).lines() {
                let (letter, mut rest) = line.split_at(1);
                let widths = match letter {
                    "B" => &B[..],
                    "H" => &H,
                    _ => continue,
                };
                for (place, &width) in widths.iter().enumerate() {
                    let (field, after) = rest.split_at(width);
                    seen.insert((letter.to_string(), place, field.trim_start().len()));
                    rest = after;
                }
                assert_eq!(rest, "");
            }
        }
        for (letter, widest) in [("B", &[8, 13, 12, 10, 13, 12][..]), ("H", &[9, 7, 8, 13])] {
            for (place, &widest) in widest.iter().enumerate() {
                let least = if (letter, place) == ("B", 0) { 8 } else { 1 };
                for width in least..=widest {
                    assert!(
                        seen.contains(&(letter.to_string(), place, width)),
                        "{letter} {place} {width}"
                    );
                }
            }
        }
    }

    #[test]
    fn a_case_and_its_answer_as_printed() {
        let mut cases = Cases(Vec::new());
        cases.sized(LONGEST, "", &["X 20        1"]);
        cases.sized(2, "\n", &["X 21        1"]);
        cases.sized(0, end(0), &[]);
        let [empty, refused, nothing] = &cases.0[..] else {
            panic!()
        };
        for (case, input, answer) in [
            (empty, "3089 0\n\n".to_string(), {
                let mut buffer = filled(3_089);
                buffer[..14].copy_from_slice(b"X 20        1\n");
                format!("0 14 {}\nX 20        1\n", digest(&buffer))
            }),
            // (2 × 31 + 35) × 31 + 36
            (refused, "2 1\n\n\n".to_string(), "21 0 3043\n".to_string()),
            (
                nothing,
                format!("0 43\n{}\n", end(0)),
                "21 0 0\n".to_string(),
            ),
        ] {
            let mut bytes = Vec::new();
            case.put(&mut bytes);
            assert_eq!(bytes, input.as_bytes());
            bytes.clear();
            case.put_answer(&mut bytes);
            assert_eq!(bytes, answer.as_bytes());
        }
    }
}
