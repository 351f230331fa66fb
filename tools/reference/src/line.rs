//! A line of an order file (the paper's "Order file"): 42 columns and a line
//! feed, read as its fields and written from them.

use std::ops::Range;

use crate::refusal::Refusal;

/// The line feed is counted.
pub const LENGTH: usize = 43;

/// Where the date and the first, second and third number stand.
const COLUMNS: [Range<usize>; 4] = [1..9, 9..18, 18..27, 27..42];

/// An unused field is 0.
#[derive(Clone, Copy, Debug, PartialEq, Eq)]
pub struct Fields {
    pub letter: u8,
    pub date: u32,
    pub first: u32,
    pub second: u32,
    pub third: u64,
}

/// The fields of a well-formed line, its line feed included.
pub fn read(line: &[u8]) -> Result<Fields, Refusal> {
    let Ok(&[letter, .., b'\n']) = <&[u8; LENGTH]>::try_from(line) else {
        return Err(Refusal::Line);
    };
    let mut numbers = [0; 4];
    for ((number, columns), used) in numbers.iter_mut().zip(COLUMNS).zip(used(letter)?) {
        let field = &line[columns];
        if used {
            *number = number_in(field).ok_or(Refusal::Line)?;
        } else if field.iter().any(|&byte| byte != b' ') {
            return Err(Refusal::Line);
        }
    }
    let [date, first, second, third] = numbers;
    Ok(Fields {
        letter,
        date: date as u32,     // 8 digits
        first: first as u32,   // 9 digits
        second: second as u32, // 9 digits
        third,
    })
}

/// Puts the line into the buffer's first 43 bytes and leaves the rest. A buffer
/// without room for it, or fields that no line has, leave all of it.
pub fn write(fields: &Fields, buffer: &mut [u8]) -> Result<(), Refusal> {
    let used = used(fields.letter)?;
    let numbers = [
        fields.date.into(),
        fields.first.into(),
        fields.second.into(),
        fields.third,
    ];
    for ((&number, columns), used) in numbers.iter().zip(COLUMNS).zip(used) {
        let most = if used { widest(columns.len()) } else { 0 };
        if number > most {
            return Err(Refusal::Line);
        }
    }
    let line = buffer.first_chunk_mut::<LENGTH>().ok_or(Refusal::Line)?;

    line.fill(b' ');
    line[0] = fields.letter;
    line[LENGTH - 1] = b'\n';
    for ((&number, columns), used) in numbers.iter().zip(COLUMNS).zip(used) {
        if used {
            put(number, &mut line[columns]);
        }
    }
    Ok(())
}

/// Which of date, first, second and third number stand in a line of this letter.
fn used(letter: u8) -> Result<[bool; 4], Refusal> {
    match letter {
        b'O' => Ok([true, true, true, true]),
        b'F' => Ok([false, true, false, true]),
        b'D' => Ok([true, false, false, false]),
        b'R' => Ok([true, false, false, true]),
        b'T' => Ok([false, true, true, true]),
        b'S' | b'E' => Ok([false, false, false, true]),
        _ => Err(Refusal::Line),
    }
}

/// Spaces, then a number without leading zeros.
fn number_in(field: &[u8]) -> Option<u64> {
    let spaces = field.iter().take_while(|&&byte| byte == b' ').count();
    match &field[spaces..] {
        [b'0'] => Some(0),
        digits @ [b'1'..=b'9', ..] => digits.iter().try_fold(0, |number, &byte| {
            let digit = byte.is_ascii_digit().then(|| u64::from(byte - b'0'))?;
            Some(number * 10 + digit) // at most 15 digits
        }),
        _ => None,
    }
}

/// The highest number of so many digits.
fn widest(digits: usize) -> u64 {
    10_u64.pow(digits as u32) - 1
}

/// Puts a number that has room into a field of spaces, the last digit first.
fn put(mut number: u64, field: &mut [u8]) {
    for column in field.iter_mut().rev() {
        *column = b'0' + (number % 10) as u8;
        number /= 10;
        if number == 0 {
            break;
        }
    }
}

#[cfg(test)]
mod tests {
    use super::*;
    use crate::random::Random;

    const LETTERS: &[u8; 7] = b"OFDRTSE";

    fn fields(letter: u8, date: u32, first: u32, second: u32, third: u64) -> Fields {
        Fields {
            letter,
            date,
            first,
            second,
            third,
        }
    }

    fn written(fields: &Fields) -> Result<Vec<u8>, Refusal> {
        let mut buffer = vec![b'?'; LENGTH];
        write(fields, &mut buffer)?;
        Ok(buffer)
    }

    /// As far as the letter uses them.
    fn only_used(all: Fields) -> Fields {
        let [date, first, second, third] = used(all.letter).unwrap();
        fields(
            all.letter,
            if date { all.date } else { 0 },
            if first { all.first } else { 0 },
            if second { all.second } else { 0 },
            if third { all.third } else { 0 },
        )
    }

    #[test]
    fn the_papers_lines() {
        for (line, expected) in [
            (
                "O20140101       30     2000            100\n",
                fields(b'O', 20140101, 30, 2_000, 100),
            ),
            (
                "F                1                 1000000\n",
                fields(b'F', 0, 1, 0, 1_000_000),
            ),
            (
                "D20140111                                 \n",
                fields(b'D', 20140111, 0, 0, 0),
            ),
            (
                "T                1        2         500000\n",
                fields(b'T', 0, 1, 2, 500_000),
            ),
            (
                "S                                      100\n",
                fields(b'S', 0, 0, 0, 100),
            ),
            (
                "E                                        6\n",
                fields(b'E', 0, 0, 0, 6),
            ),
        ] {
            assert_eq!(read(line.as_bytes()), Ok(expected));
            assert_eq!(written(&expected).unwrap(), line.as_bytes());
        }
    }

    #[test]
    fn the_widest_numbers_touch() {
        let widest = fields(
            b'O',
            99_999_999,
            999_999_999,
            999_999_999,
            999_999_999_999_999,
        );
        let line = [&b"O"[..], &[b'9'; 41], b"\n"].concat();
        assert_eq!(read(&line), Ok(widest));
        assert_eq!(written(&widest), Ok(line));
    }

    /// Reading 11: date 5 and share 0 are written, and reading 1: they are read.
    #[test]
    fn no_meaning_is_checked() {
        for fields in [
            fields(b'O', 5, 0, 999_999_999, 0),
            fields(b'F', 0, 0, 0, 0),
            fields(b'T', 0, 7, 7, 999_999_999_999_999),
            fields(b'E', 0, 0, 0, 999_999_999_999_999),
        ] {
            let line = written(&fields).unwrap();
            assert_eq!(read(&line), Ok(fields));
        }
    }

    #[test]
    fn written_lines_read_back() {
        let mut random = Random::seeded(43, 0);
        for _ in 0..20_000 {
            let expected = only_used(fields(
                random.pick(LETTERS),
                random.of_any_size(99_999_999) as u32,
                random.of_any_size(999_999_999) as u32,
                random.of_any_size(999_999_999) as u32,
                random.of_any_size(999_999_999_999_999),
            ));
            let line = written(&expected).unwrap();
            assert_eq!(read(&line), Ok(expected));
        }
    }

    /// Any bytes that can be read are written as the same bytes.
    #[test]
    fn read_lines_are_written_back() {
        let mut random = Random::seeded(43, 1);
        let mut well_formed = 0;
        for _ in 0..200_000 {
            let mut line = vec![b' '; LENGTH];
            line[0] = random.pick(LETTERS);
            line[LENGTH - 1] = random.pick(b"\n\n\n\n\n\n\n0");
            for (columns, used) in COLUMNS.into_iter().zip(used(line[0]).unwrap()) {
                let width = columns.len() as u64;
                let digits = match used {
                    true if random.one_in(20) => 0,
                    true => random.between(1, width),
                    false => u64::from(random.one_in(20)),
                };
                for column in &mut line[columns.end - digits as usize..columns.end] {
                    *column = random.pick(b"00123456789");
                }
            }
            if random.one_in(4) {
                line[random.below(43) as usize] = random.below(256) as u8;
            }
            if let Ok(fields) = read(&line) {
                well_formed += 1;
                assert_eq!(written(&fields), Ok(line));
            }
        }
        assert!((50_000..150_000).contains(&well_formed), "{well_formed}");
    }

    /// `text` in the columns of the third number of an S line.
    fn third(text: &str) -> Result<u64, Refusal> {
        let line = format!("S{text:>41}\n");
        read(line.as_bytes()).map(|fields| fields.third)
    }

    #[test]
    fn numbers() {
        for (text, number) in [
            ("0", 0),
            ("7", 7),
            ("10", 10),
            ("4294967296", 1 << 32),
            ("100000000000000", 100_000_000_000_000),
            ("999999999999999", 999_999_999_999_999),
        ] {
            assert_eq!(third(text), Ok(number), "{text}");
        }
        for text in [
            "",
            "00",
            "01",
            "007",
            "7 ",
            "1 7",
            "+7",
            "-7",
            "-0",
            "7.",
            "7,0",
            "0x7",
            "7e1",
            "\t7",
            "7\t",
            "\x007",
            "/",
            ":",
            "a",
            "1/",
            "1:",
            "000000000000001",
            "1000000000000000",
            "9999999999999999",
        ] {
            assert_eq!(third(text), Err(Refusal::Line), "{text:?}");
        }
    }

    /// A used field is never all spaces, and an unused one always.
    #[test]
    fn used_and_unused_fields() {
        for &letter in LETTERS {
            let used = used(letter).unwrap();
            for mask in 0..16_usize {
                let present: Vec<bool> = (0..4).map(|place| mask >> place & 1 == 1).collect();
                let text = |place: usize| if present[place] { "0" } else { "" };
                let line = format!(
                    "{}{:>8}{:>9}{:>9}{:>15}\n",
                    letter as char,
                    text(0),
                    text(1),
                    text(2),
                    text(3)
                );
                assert_eq!(read(line.as_bytes()).is_ok(), present == used, "{line}");
            }
        }
    }

    #[test]
    fn only_seven_letters() {
        for letter in 0..=255 {
            let mut line = [b' '; LENGTH];
            line[0] = letter;
            line[41] = b'0';
            line[42] = b'\n';
            assert_eq!(read(&line).is_ok(), b"SE".contains(&letter), "{letter}");
            let fields = fields(letter, 0, 0, 0, 0);
            assert_eq!(written(&fields).is_ok(), LETTERS.contains(&letter));
        }
    }

    #[test]
    fn lines_of_other_lengths() {
        let line = "S                                        5\n";
        assert!(read(line.as_bytes()).is_ok());
        for other in ["", "\n", "S", &line[..42], &line[1..], &format!("{line}\n")] {
            assert_eq!(read(other.as_bytes()), Err(Refusal::Line));
        }
        let longer = line.replace('5', " 5");
        assert_eq!(read(longer.as_bytes()), Err(Refusal::Line));
        let carriage_return = line.replace('\n', "\r\n");
        assert_eq!(read(carriage_return.as_bytes()), Err(Refusal::Line));
        let no_line_feed = line.replace('\n', " ");
        assert_eq!(read(no_line_feed.as_bytes()), Err(Refusal::Line));
    }

    #[test]
    fn too_wide_or_unused_leaves_the_buffer() {
        let over = fields(
            0,
            100_000_000,
            1_000_000_000,
            1_000_000_000,
            1_000_000_000_000_000,
        );
        for &letter in LETTERS {
            let good = fields(letter, 0, 0, 0, 0);
            let used = used(letter).unwrap();
            for (place, used) in used.into_iter().enumerate() {
                let mut bad = good;
                match place {
                    0 => bad.date = if used { over.date } else { 1 },
                    1 => bad.first = if used { over.first } else { 1 },
                    2 => bad.second = if used { over.second } else { 1 },
                    _ => bad.third = if used { over.third } else { 1 },
                }
                let mut buffer = [b'?'; 50];
                assert_eq!(write(&bad, &mut buffer), Err(Refusal::Line));
                assert_eq!(buffer, [b'?'; 50]);
            }
        }
    }

    #[test]
    fn buffers() {
        let settle = fields(b'S', 0, 0, 0, 100);
        for size in 0..100 {
            let mut buffer = vec![b'?'; size];
            if size < LENGTH {
                assert_eq!(write(&settle, &mut buffer), Err(Refusal::Line));
                assert_eq!(buffer, vec![b'?'; size]);
            } else {
                assert_eq!(write(&settle, &mut buffer), Ok(()));
                assert_eq!(
                    buffer[..LENGTH],
                    *b"S                                      100\n"
                );
                assert_eq!(buffer[LENGTH..], vec![b'?'; size - LENGTH]);
            }
        }
    }
}
