//! The programs `statement` and `often`, as processes that read a file.

use std::fs;
use std::fs::File;
use std::io;
use std::path::{Path, PathBuf};
use std::process::{Command, Stdio};
use std::sync::atomic::{AtomicUsize, Ordering};
use std::time::Duration;

use crate::files::{Case, SETTLEMENTS};
use crate::instructions;

/// Writes the files of a case into a folder, numbered from 1.
pub fn write_files(case: Case, folder: &Path) -> io::Result<Vec<PathBuf>> {
    let files = case.files();
    let numbered = files.iter().zip(1..);
    numbered
        .map(|(file, number)| {
            let path = folder.join(format!("{}-{number}", case.word()));
            fs::write(&path, file)?;
            Ok(path)
        })
        .collect()
}

const SECOND_CALLER: &str = "\
A second caller: instructions of a statement by the program statement, where each call
on a book has one caller, and by often, where it has two. They are those of the process
less those of the same program on an empty file. Of the settlements it is one file.";

/// Statements by both programs: in `often` every call on a book has a second
/// caller, in `statement` it has one.
pub fn second_caller(statement: &Path, often: &Path) {
    println!("\n{SECOND_CALLER}");
    println!("{:32}{:>12}{:>12}{:>8}", "", "statement", "often", "ratio");
    let folder = Folder::new();
    let empty = folder.file("empty", b"");
    for case in [
        Case::Longest,
        Case::Rates,
        Case::Transfers,
        Case::Cents(127),
        Case::Cents(64),
    ] {
        let files = write_files(case, &folder.0).expect("files");
        let file = &files[0];
        assert!(
            output(statement, file) == output(often, file),
            "statements differ"
        );
        let counts = [statement, often].map(|program| count_beyond(program, file, &empty));
        let name = match case {
            Case::Cents(cents) => format!("{SETTLEMENTS} settlements of {cents} cents"),
            _ => case.name(files.len()).replace(" *", ""),
        };
        println!("{name:32}{}", columns(counts));
    }
}

fn columns(counts: [Option<f64>; 2]) -> String {
    match counts {
        [Some(one), Some(two)] => format!("{one:12.0}{two:12.0}{:8.3}", two / one),
        _ => format!("{:>12}{:>12}{:>8}", "-", "-", "-"),
    }
}

const CENTS: [u64; 2] = [64, 127];

/// What a row of the settlements has: a program on a number of cents.
struct Settling<'a> {
    name: String,
    program: &'a Path,
    input: &'a Path,
    /// On this input and on an empty file.
    least: [Duration; 2],
    count: Option<f64>,
}

const SETTLING: &str = "\
Req 05: 10,000 settlements of one book, 64 holders of 15,625 parts, one day held, by the
program often. Processor time in microseconds, the least of 41 rounds, and instructions,
both of the process less that of the same program on an empty file. The ratio is to the
first row. Ours of 127 cents may take 2.0 times what 64 took before.";

/// In each round all rows take a turn.
const ROUNDS: usize = 41;

/// 10,000 settlements of one book by `often`, ours and that of an earlier commit.
/// The ratio is to 64 cents, the earlier one's if there is one.
pub fn settling(ours: &Path, before: Option<&Path>) {
    let folder = Folder::new();
    let empty = folder.file("empty", b"");
    let inputs =
        CENTS.map(|cents| folder.file(&format!("{cents}"), format!("{cents}\n").as_bytes()));
    let earlier = before.map(|before| ("before", before));
    let mut rows = Vec::new();
    for (whose, program) in earlier.into_iter().chain([("ours", ours)]) {
        for (cents, input) in CENTS.iter().zip(&inputs) {
            assert!(output(program, input) == output(ours, input), "sums differ");
            rows.push(Settling {
                name: format!("{whose}, {cents} cents"),
                program,
                input,
                least: [Duration::MAX; 2],
                count: count_beyond(program, input, &empty),
            });
        }
    }
    for _ in 0..ROUNDS {
        for row in &mut rows {
            let [on_input, on_empty] = row.least;
            row.least = [
                on_input.min(processor_time(row.program, row.input)),
                on_empty.min(processor_time(row.program, &empty)),
            ];
        }
    }
    print_settling(&rows);
}

fn print_settling(rows: &[Settling]) {
    println!("\n{SETTLING}");
    println!(
        "{:32}{:>12}{:>8}{:>16}{:>8}",
        "", "microseconds", "ratio", "instructions", "ratio"
    );
    let Some(first) = rows.first() else { return };
    for row in rows {
        let counts = match (row.count, first.count) {
            (Some(count), Some(first)) => format!("{count:16.0}{:8.3}", count / first),
            _ => format!("{:>16}{:>8}", "-", "-"),
        };
        let time = row.microseconds();
        println!(
            "{:32}{time:12.0}{:8.3}{counts}",
            row.name,
            time / first.microseconds()
        );
    }
}

impl Settling<'_> {
    fn microseconds(&self) -> f64 {
        let [on_input, on_empty] = self.least;
        on_input.saturating_sub(on_empty).as_nanos() as f64 / 1_000.0
    }
}

/// The instructions on a file, less those on an empty one.
fn count_beyond(program: &Path, input: &Path, empty: &Path) -> Option<f64> {
    let count = instructions::of_process(program, input)?;
    Some(count - instructions::of_process(program, empty)?)
}

/// What a program prints for a file.
fn output(program: &Path, input: &Path) -> Vec<u8> {
    let output = reading(program, input).output().expect("a program");
    assert!(output.status.success(), "{} failed", program.display());
    output.stdout
}

fn reading(program: &Path, input: &Path) -> Command {
    let mut command = Command::new(program);
    command.stdin(File::open(input).expect("a file that can be read"));
    command
}

/// Of a run of a program on a file, in user and system mode.
fn processor_time(program: &Path, input: &Path) -> Duration {
    let before = childrens_time();
    let status = reading(program, input).stdout(Stdio::null()).status();
    assert!(status.expect("a program").success());
    childrens_time() - before
}

/// The processor time of all processes that this one waited for. The kernel tells
/// user and system mode apart by its clock's ticks, too rough for a few
/// milliseconds; their sum is exact.
fn childrens_time() -> Duration {
    let mut usage = Usage([0; 18]);
    let failed = unsafe { getrusage(RUSAGE_CHILDREN, &mut usage) };
    assert_eq!(failed, 0, "no times of processes");
    let [user_s, user_us, system_s, system_us, ..] = usage.0;
    let microseconds = (user_s + system_s) * 1_000_000 + user_us + system_us;
    Duration::from_micros(microseconds as u64)
}

/// On Linux for x86-64: user and system time in seconds and microseconds, then
/// other counts.
#[repr(C)]
struct Usage([i64; 18]);

const RUSAGE_CHILDREN: i32 = -1;

extern "C" {
    fn getrusage(who: i32, usage: *mut Usage) -> i32;
}

/// A folder for a while.
struct Folder(PathBuf);

impl Folder {
    fn new() -> Self {
        static MADE: AtomicUsize = AtomicUsize::new(0);
        let number = MADE.fetch_add(1, Ordering::Relaxed);
        let name = format!("linked-{}-{number}", std::process::id());
        let folder = std::env::temp_dir().join(name);
        fs::create_dir(&folder).expect("a folder for files");
        Folder(folder)
    }

    fn file(&self, name: &str, bytes: &[u8]) -> PathBuf {
        let path = self.0.join(name);
        fs::write(&path, bytes).expect("a file");
        path
    }
}

impl Drop for Folder {
    fn drop(&mut self) {
        let _ = fs::remove_dir_all(&self.0);
    }
}

#[cfg(test)]
mod tests {
    use super::*;

    #[test]
    fn often_divided_by_statement() {
        assert_eq!(
            columns([Some(200.0), Some(300.0)]),
            "         200         300   1.500"
        );
        assert_eq!(
            columns([Some(200.0), None]),
            "           -           -       -"
        );
    }

    #[test]
    fn files_of_a_case() {
        let folder = Folder::new();
        let paths = write_files(Case::Cents(64), &folder.0).unwrap();
        assert_eq!(paths.len(), 42);
        let last = fs::read(folder.0.join("cents-64-42")).unwrap();
        assert_eq!(Some(&last), Case::Cents(64).files().last());
        let path = folder.0.clone();
        drop(folder);
        assert!(!path.exists());
    }

    /// What a process works counts when it has ended.
    #[test]
    fn time_of_a_process() {
        let folder = Folder::new();
        let script = folder.file(
            "script",
            b"i=0; while [ $i -lt 20000 ]; do i=$((i+1)); done\n",
        );
        let took = processor_time(Path::new("sh"), &script);
        assert!(took > Duration::from_millis(1), "{took:?}");
    }
}
