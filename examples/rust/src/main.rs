//! Checks a month's order file. Prints how many lines it has before E and its
//! statement, or why it is refused and the refused line.
//!
//! Build and run it with one command:  examples/rust/run FILE
//!
//! The exit code is 0 for an accepted file, 1 for a refused one, 2 if the file
//! can't be read, has no statement or the text can't be written, and 3, of
//! examples/rust/run alone, if the program isn't built.

mod taborumbra;

use std::io::{self, Write};
use std::path::Path;
use std::process::ExitCode;
use std::{env, fs};

/// How many bytes of a refused part are shown. A file without line feeds is one
/// line, however long.
const SHOWN_BYTES: usize = 200;

fn main() -> ExitCode {
    let names: Vec<_> = env::args_os().skip(1).collect();
    match &names[..] {
        [name] => print_month(Path::new(name)),
        _ => stopped("usage: month FILE"),
    }
}

fn stopped(why: &str) -> ExitCode {
    eprintln!("{why}");
    ExitCode::from(2)
}

/// Reads the file, checks it and prints.
fn print_month(name: &Path) -> ExitCode {
    let file = match fs::read(name) {
        Ok(file) => file,
        Err(_) => return stopped(&format!("can't read {}", name.display())),
    };
    let (text, code) = month(&file);
    match write(&text) {
        Ok(()) => ExitCode::from(code),
        Err(_) => stopped("can't write the text"),
    }
}

fn write(text: &[u8]) -> io::Result<()> {
    let mut out = io::stdout();
    out.write_all(text)?;
    out.flush()
}

/// What is printed, and the exit code.
fn month(file: &[u8]) -> (Vec<u8>, u8) {
    let refused = match taborumbra::check(file) {
        Ok(count) => return statement(file, count),
        Err(refused) => refused,
    };
    let word = taborumbra::trade_word(refused.number);
    let text = format!(
        "refused with {} ({word}) at line {}\n{}",
        refused.number,
        refused.line,
        shown(&file[refused.part])
    );
    (text.into_bytes(), 1)
}

/// The statement of an accepted file below its count of lines.
fn statement(file: &[u8], count: usize) -> (Vec<u8>, u8) {
    let statement = match taborumbra::statement(file) {
        Ok(statement) => statement,
        Err(_) => return (Vec::new(), 2),
    };
    let plural = if count == 1 { "" } else { "s" };
    let counted = format!("accepted: {count} line{plural} before E\n");
    ([counted.as_bytes(), &statement].concat(), 0)
}

/// The refused part on a line of its own, so that what can't be seen of it is seen:
/// CR LF, a tab, a lost line feed. Nothing if it is empty.
fn shown(part: &[u8]) -> String {
    let bytes = part.iter().take(SHOWN_BYTES);
    let escaped: String = bytes.map(|&byte| escaped(byte)).collect();
    match part.len() {
        0 => String::new(),
        1..=SHOWN_BYTES => escaped + "\n",
        _ => escaped + " ...\n",
    }
}

/// Printable ASCII as it is, but a backslash as two; every other byte as \n, \r, \t
/// or \xNN.
fn escaped(byte: u8) -> String {
    match byte {
        b'\n' => "\\n".into(),
        b'\r' => "\\r".into(),
        b'\t' => "\\t".into(),
        b'\\' => "\\\\".into(),
        b' '..=b'~' => char::from(byte).into(),
        _ => format!("\\x{byte:02x}"),
    }
}
