//! The six functions that the archive exports, each behind a safe wrapper with
//! its name. A slice is a pointer and a length.

/// What every statement fits into.
pub const STATEMENT_BYTES: usize = 3_089;

extern "C" {
    fn taborumbra_check(
        file: *const u8,
        file_bytes: usize,
        line: *mut usize,
        start: *mut usize,
        end: *mut usize,
        count: *mut usize,
    ) -> u32;
    fn taborumbra_statement(
        file: *const u8,
        file_bytes: usize,
        out: *mut u8,
        out_bytes: usize,
        statement_bytes: *mut usize,
    ) -> u32;
    fn taborumbra_read_line(
        line: *const u8,
        line_bytes: usize,
        letter: *mut u8,
        date: *mut u32,
        first: *mut u32,
        second: *mut u32,
        third: *mut u64,
    ) -> u32;
    fn taborumbra_write_line(
        letter: u8,
        date: u32,
        first: u32,
        second: u32,
        third: u64,
        out: *mut u8,
        out_bytes: usize,
    ) -> u32;
    fn taborumbra_daily_rate(annual: u64, daily: *mut u64) -> u32;
    fn taborumbra_plus_days(date: u32, days: u32, sum: *mut u32) -> u32;
}

// In each wrapper the slices and slots are whole for the call, and no slot or
// written buffer is reached in another way meanwhile: they are borrowed.

pub fn check(
    file: &[u8],
    line: &mut usize,
    start: &mut usize,
    end: &mut usize,
    count: &mut usize,
) -> u32 {
    unsafe { taborumbra_check(file.as_ptr(), file.len(), line, start, end, count) }
}

pub fn statement(file: &[u8], out: &mut [u8], statement_bytes: &mut usize) -> u32 {
    unsafe {
        taborumbra_statement(
            file.as_ptr(),
            file.len(),
            out.as_mut_ptr(),
            out.len(),
            statement_bytes,
        )
    }
}

pub fn read_line(
    line: &[u8],
    letter: &mut u8,
    date: &mut u32,
    first: &mut u32,
    second: &mut u32,
    third: &mut u64,
) -> u32 {
    unsafe {
        taborumbra_read_line(
            line.as_ptr(),
            line.len(),
            letter,
            date,
            first,
            second,
            third,
        )
    }
}

pub fn write_line(
    letter: u8,
    date: u32,
    first: u32,
    second: u32,
    third: u64,
    out: &mut [u8],
) -> u32 {
    unsafe {
        taborumbra_write_line(
            letter,
            date,
            first,
            second,
            third,
            out.as_mut_ptr(),
            out.len(),
        )
    }
}

pub fn daily_rate(annual: u64, daily: &mut u64) -> u32 {
    unsafe { taborumbra_daily_rate(annual, daily) }
}

pub fn plus_days(date: u32, days: u32, sum: &mut u32) -> u32 {
    unsafe { taborumbra_plus_days(date, days, sum) }
}
