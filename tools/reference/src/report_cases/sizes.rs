//! Buffers of all sizes: those with room for the longest statement, and smaller
//! ones, which are refused whatever the file.

use super::*;

pub fn cases(cases: &mut Cases) {
    for size in [0, 1, 3_088, 3_089, 3_090, 4_000] {
        cases.sized(size, "", &["X 20        1"]);
        cases.sized(size, "\n", &["X 21        1"]);
        cases.sized(size, settle(0), &["X  1        1"]);
        cases.sized(size, end(0), &[]);
        accepted(cases, size);
    }
    // Enough for the statements, but not for any.
    for size in [13, 14, 15, 80, 81, 82, 128, 129, 2_000] {
        cases.sized(size, "", &["X 20        1"]);
        accepted(cases, size);
    }
    full_book(cases);
}

fn accepted(cases: &mut Cases, size: usize) {
    let lines = open(20140101, 30, 2_000, 100) + &finance(1, ALL);
    cases.sized(
        size,
        whole(lines),
        &[
            "B20140101            100              0          0              0              0",
            "H        1  1000000           0              0",
        ],
    );
}

/// Its statement is the longest.
fn full_book(cases: &mut Cases) {
    let file = whole(open(20140101, 30, 2_000, 100) + &financings(64));
    let b_line = "B20140101            100              0          0              0              0";
    let mut lines = vec![b_line.to_string()];
    for holder in 1..=64 {
        lines.push(format!("H{holder:>9}    15625           0              0"));
    }
    let lines: Vec<&str> = lines.iter().map(String::as_str).collect();
    for size in [3_088, 3_089] {
        cases.sized(size, &file, &lines);
    }
}
