//! The paper's example, and the sentences of "Order file" one by one.

use super::*;
use crate::lists;
use crate::order_text::{lines_of, PAPER};
use crate::random::Random;
use crate::statement::of_book;

const STATEMENT: &str = concat!(
    "B20140131              0              0 1627656000            100              0\n",
    "H        1   500000           0             67\n",
    "H        2   500000           0             33\n",
);

const E0: &str = "E                                        0\n";
const E1: &str = "E                                        1\n";
const E2: &str = "E                                        2\n";
const O: &str = "O20140101       30     2000            100\n";
const F: &str = "F                1                 1000000\n";
const D: &str = "D20140102                                 \n";
const S: &str = "S                                        5\n";

fn opened() -> Book {
    let mut book = Book::empty();
    let file = [O, F, E2].concat();
    load(&mut book, file.as_bytes()).unwrap();
    book
}

fn accepted(book: &mut Book, file: &str, count: u64) {
    let loaded = load(book, file.as_bytes()).unwrap();
    assert_eq!(loaded.count, count);
    assert_eq!(loaded.part, file.len()..file.len());
}

/// The file is refused like this, and the book is the one before.
fn refused_on(book: &mut Book, file: &str, number: u32, line: u64, part: &str) {
    let before = book.clone();
    let fault = load(book, file.as_bytes()).unwrap_err();
    assert_eq!(
        (fault.refusal.number(), fault.line),
        (number, line),
        "{file}"
    );
    assert_eq!(&file[fault.part.clone()], part, "{file}");
    if part.is_empty() {
        assert_eq!(fault.part, file.len()..file.len());
    }
    assert_eq!(*book, before);
}

fn refused(file: &str, number: u32, line: u64, part: &str) {
    refused_on(&mut Book::empty(), file, number, line, part);
}

/// So many F lines, for different holders.
fn financings(count: u32) -> String {
    (1..=count)
        .map(|holder| format!("F{holder:>17}{:>24}\n", 15_625))
        .collect()
}

#[test]
fn the_papers_example() {
    assert_eq!(PAPER.len(), 301);
    let mut book = Book::empty();
    accepted(&mut book, PAPER, 6);
    assert_eq!(of_book(&book), STATEMENT);
}

#[test]
fn lines_of_a_file() {
    let ends = |file: &[u8]| {
        let mut reader = Reader::new(file);
        let mut ends = Vec::new();
        while let Some(line) = reader.next() {
            assert_eq!(line.start, ends.last().copied().unwrap_or(0));
            ends.push(line.end);
            assert_eq!(line.number, ends.len() as u64);
        }
        assert_eq!(reader.end().number, ends.len() as u64 + 1);
        ends
    };
    assert_eq!(ends(b""), []);
    assert_eq!(ends(b"\n"), [1]);
    assert_eq!(ends(b"a"), [1]);
    assert_eq!(ends(b"a\n"), [2]);
    assert_eq!(ends(b"a\n\nbc"), [2, 3, 5]);
    assert_eq!(ends(b"\r\na\r"), [2, 4]);
}

/// Reading 1: a date field is a number like the others.
#[test]
fn a_well_formed_date_is_refused_by_the_call() {
    let date = "D       5                                 \n";
    refused(&[date, E1].concat(), 1, 1, date);
    refused_on(&mut opened(), &[date, E1].concat(), 3, 1, date);
    let open = O.replace("20140101", "       5");
    refused(&[&open, F, E2].concat(), 3, 1, &open);
    refused_on(&mut opened(), &[&open, F, E2].concat(), 2, 1, &open);
}

/// Reading 2: values over 32 bits are never cut.
#[test]
fn fifteen_digits() {
    const WHOLE_IF_CUT: u64 = (1 << 32) + 1_000_000;
    for share in [1 << 32, WHOLE_IF_CUT, 999_999_999_999_999] {
        let finance = format!("F                1        {share:>16}\n");
        refused(&[O, &finance, E2].concat(), 7, 1, O);
        let transfer = format!("T                1        2{share:>15}\n");
        refused_on(&mut opened(), &[&transfer, E1].concat(), 11, 1, &transfer);
        let rate = format!("R20140101{share:>33}\n");
        refused_on(&mut opened(), &[&rate, E1].concat(), 6, 1, &rate);
    }
    // After the refusals that come before the financing's.
    let open = O.replace("    2000", "    4001");
    let finance = format!("F                1        {WHOLE_IF_CUT:>16}\n");
    refused(&[&open, &finance, E2].concat(), 6, 1, &open);
    let settle = "S                          999999999999999\n";
    refused_on(&mut opened(), &[settle, E1].concat(), 5, 1, settle);
    let open = O.replace("            100", "999999999999999");
    refused(&[&open, F, E2].concat(), 5, 1, &open);
    let end = format!("E{:>41}\n", (1_u64 << 32) + 2);
    refused(&[O, F, &end].concat(), 22, 3, &end);
}

/// Reading 3: an incomplete last line, a whole E line without its line feed too.
#[test]
fn incomplete_last_lines() {
    for length in 1..43 {
        refused(&PAPER[..258 + length], 21, 7, &PAPER[258..258 + length]);
    }
    refused("D", 21, 1, "D");
}

/// Reading 4: form, place of F, 65th F, E's count, then the call's own numbers.
#[test]
fn checks_of_a_line_in_their_order() {
    let cut = "F                1                  1000000";
    refused(&[D, F].concat(), 1, 1, D);
    refused_on(&mut opened(), &[D, F].concat(), 21, 2, F);
    refused(&[cut, "\n"].concat(), 21, 1, &[cut, "\n"].concat());
    let full = [O, &financings(64)].concat();
    refused(&[&full, F].concat(), 7, 66, F);
    refused(&[&full, F, F, E0].concat(), 7, 66, F);
    refused(&[&full, cut].concat(), 21, 66, cut);
    accepted(
        &mut Book::empty(),
        &[&full[..], &E0.replace(" 0", "65")].concat(),
        65,
    );
}

/// Reading 5: "begins with F" looks at the first byte alone.
#[test]
fn when_open_runs() {
    let bad = O.replace("20140101", "20140229");
    // Anything else than F lets Open run first.
    for rest in [
        "",
        "\n",
        " ",
        "f\n",
        D,
        E0,
        E1,
        E2,
        &[E2, "\n"].concat(),
        O,
        "\0",
    ] {
        refused(&[&bad, F, rest].concat(), 3, 1, &bad);
    }
    // A malformed F doesn't, nor does a 65th.
    for rest in ["F", "F\n", "F F"] {
        refused(&[&bad, rest].concat(), 21, 2, rest);
        refused(&[&bad, F, rest].concat(), 21, 3, rest);
        refused_on(&mut opened(), &[&bad, F, rest].concat(), 21, 3, rest);
    }
    let many = [&bad, &financings(64), F].concat();
    refused(&many, 7, 66, F);
    refused_on(&mut opened(), &many, 7, 66, F);
}

/// Reading 6: no holders.
#[test]
fn an_opening_without_financing() {
    let rate = "R20140101                             2000\n";
    let transfer = "T                1        2         500000\n";
    for rest in [O, D, rate, transfer, S, E1, ""] {
        refused(&[O, rest].concat(), 7, 1, O);
        refused_on(&mut opened(), &[O, rest].concat(), 2, 1, O);
    }
}

/// Reading 7: a wrong count, bytes after E, and both.
#[test]
fn count_and_bytes_after_the_end() {
    let whole = [O, F, E2].concat();
    for rest in ["\n", " ", "E", "\n\n", E0, F, &[F, F].concat(), "\0\0\0"] {
        let first_line = rest.split_inclusive('\n').next().unwrap();
        refused(&[&whole, rest].concat(), 22, 4, first_line);
        refused(&[O, F, E1, rest].concat(), 22, 3, E1);
    }
    for end in [E0, E1, &E2.replace('2', "3")] {
        refused(&[O, F, end].concat(), 22, 3, end);
    }
}

/// Reading 8.
#[test]
fn no_end_and_the_empty_file() {
    refused("", 20, 1, "");
    refused_on(&mut opened(), "", 20, 1, "");
    refused(&[O, F].concat(), 22, 3, "");
    refused(&[O, F, D].concat(), 22, 4, "");
    refused_on(&mut opened(), D, 22, 2, "");
    refused("\n", 21, 1, "\n");
    refused("\n\n", 21, 1, "\n");
    refused(&["\n", PAPER].concat(), 21, 1, "\n");
}

/// Reading 9: on an open book the file goes on from it.
#[test]
fn going_on() {
    let mut book = Book::empty();
    for months in [
        &[O, F, E2][..],
        &["D20140111                                 \n", E1],
        &["T                1        2         500000\n", E1],
        &[E0],
        &["D20140131                                 \n", E1],
        &["S                                      100\n", E1],
    ] {
        let file = months.concat();
        accepted(&mut book, &file, months.len() as u64 - 1);
        refused_on(&mut book, &[O, F, E2].concat(), 2, 1, O);
    }
    assert_eq!(of_book(&book), STATEMENT);
}

/// A fault after orders that would be accepted takes them back.
#[test]
fn all_or_nothing() {
    let mut book = opened();
    refused_on(&mut book, &[D, S, D, E0].concat(), 8, 3, D);
    refused_on(&mut book, &[D, S, E1].concat(), 22, 3, E1);
    accepted(&mut book, &[D, S, E2].concat(), 2);
    refused_on(&mut book, &[S, E1].concat(), 13, 1, S);
    refused(&[O, F, D, S, S].concat(), 13, 5, S);
    refused(&[O, F, D, S, "D2014010"].concat(), 21, 5, "D2014010");
}

/// Reading 10: no limit but the book's own.
#[test]
fn longer_than_the_program_takes() {
    let transfers = [
        "T                1        2         500000\n",
        "T                2        1         500000\n",
    ]
    .concat();
    let file = [O, F, &transfers.repeat(1_000), &format!("E{:>41}\n", 2_002)].concat();
    assert!(file.len() > 65_536);
    accepted(&mut Book::empty(), &file, 2_002);
}

#[test]
fn the_end_alone() {
    let mut book = Book::empty();
    accepted(&mut book, E0, 0);
    assert_eq!(book, Book::empty());
    refused(E1, 22, 1, E1);
    let mut book = opened();
    accepted(&mut book, E0, 0);
    assert_eq!(book, opened());
}

/// A file has the outcome of its calls: one by one, and all accepted at once.
#[test]
fn files_and_calls_agree() {
    for number in 0..60 {
        let mut by_calls = Book::empty();
        let mut by_files = Book::empty();
        let mut all = String::new();
        let mut count = 0;
        for call in lists::any(&mut Random::seeded(20, number)) {
            let Some(lines) = lines_of(&call) else {
                continue;
            };
            let lines_here = lines.matches('\n').count() as u64;
            let file = format!("{lines}E{lines_here:>41}\n");
            let answer = call.run(&mut by_calls).map(drop);
            let loaded = load(&mut by_files, file.as_bytes());
            assert_eq!(loaded.map(drop).map_err(|fault| fault.refusal), answer);
            assert_eq!(by_files, by_calls);
            if answer.is_ok() {
                all += &lines;
                count += lines_here;
            }
        }
        all += &format!("E{count:>41}\n");
        let mut at_once = Book::empty();
        accepted(&mut at_once, &all, count);
        assert_eq!(at_once, by_calls);
    }
}
