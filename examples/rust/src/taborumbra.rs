//! The library's check and statement for Rust, over the C functions of
//! include/taborumbra.h.

use std::ops::Range;

extern "C" {
    fn taborumbra_check(
        file: *const u8,
        file_bytes: usize,
        line: *mut usize,
        start: *mut usize,
        end: *mut usize,
        count: *mut usize,
    ) -> u32;
    fn taborumbra_statement(
        file: *const u8,
        file_bytes: usize,
        out: *mut u8,
        out_bytes: usize,
        statement_bytes: *mut usize,
    ) -> u32;
}

/// What every statement fits into.
const STATEMENT_BYTES: usize = 3_089;

/// Why a file is refused.
pub struct Refused {
    /// Of the table of refusals.
    pub number: u32,
    /// The refused line's number, from 1.
    pub line: usize,
    /// Where that line stands in the file.
    pub part: Range<usize>,
}

/// The count of the lines before E, or why the file is refused.
pub fn check(file: &[u8]) -> Result<usize, Refused> {
    let [mut line, mut start, mut end, mut count] = [0; 4];
    let number = unsafe {
        taborumbra_check(
            file.as_ptr(),
            file.len(),
            &mut line,
            &mut start,
            &mut end,
            &mut count,
        )
    };
    match number {
        0 => Ok(count),
        _ => Err(Refused {
            number,
            line,
            part: start..end,
        }),
    }
}

/// The statement of a file; a refused one's is its X line. The error is the number
/// of another answer than accepted.
pub fn statement(file: &[u8]) -> Result<Vec<u8>, u32> {
    let mut out = vec![0; STATEMENT_BYTES];
    let mut statement_bytes = 0;
    let number = unsafe {
        taborumbra_statement(
            file.as_ptr(),
            file.len(),
            out.as_mut_ptr(),
            out.len(),
            &mut statement_bytes,
        )
    };
    out.truncate(statement_bytes);
    match number {
        0 => Ok(out),
        _ => Err(number),
    }
}

/// A refusal's trade word.
pub fn trade_word(number: u32) -> &'static str {
    match number {
        1 => "unopened",
        2 => "already open",
        3 => "date",
        4 => "term",
        5 => "amount",
        6 => "rate",
        7 => "financing",
        8 => "day",
        9 => "settlement pending",
        10 => "holder",
        11 => "share",
        12 => "book full",
        13 => "no day held",
        14 => "overpaid",
        20 => "empty file",
        21 => "line",
        22 => "unfinished",
        _ => "unknown",
    }
}
