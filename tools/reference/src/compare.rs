//! Runs a statement program on random files, and compares what it prints with
//! the statement of each.

use std::collections::BTreeMap;
use std::io::{self, ErrorKind, Write};
use std::path::PathBuf;
use std::process::{Command, Output, Stdio};
use std::time::Duration;
use std::{env, fs, process, thread};

use crate::random::Random;
use crate::random_files;
use crate::statement::{file_from, statement};

#[derive(Default)]
pub struct Report {
    pub passed: u64,
    pub failed: u64,
    /// How often each outcome was expected.
    outcomes: BTreeMap<Outcome, u64>,
    /// A text for each file that failed.
    pub faults: Vec<String>,
}

#[derive(Clone, Copy, Debug, PartialEq, Eq, PartialOrd, Ord)]
enum Outcome {
    Book,
    Nothing,
    /// By its number.
    Refusal(u32),
}

/// The program answers what it printed and how it ended, for the file of a
/// number.
pub fn compare(
    files: u64,
    seed: u64,
    program: impl Fn(u64, &[u8]) -> io::Result<Output>,
) -> io::Result<Report> {
    let mut report = Report::default();
    for number in 0..files {
        let file = random_files::any(&mut Random::seeded(seed, number));
        let expected = statement(&file_from(&file[..])?);
        *report.outcomes.entry(Outcome::of(&expected)).or_default() += 1;
        let output = program(number, &file)?;
        if output.stdout == expected.as_bytes() && output.status.code() == Some(0) {
            report.passed += 1;
        } else {
            report.failed += 1;
            let path = kept(seed, number, &file)?;
            report.faults.push(format!(
                "file {number}: {}\nexpected:\n{expected}printed, {}:\n{}",
                path.display(),
                output.status,
                String::from_utf8_lossy(&output.stdout)
            ));
        }
    }
    Ok(report)
}

/// How the input comes.
#[derive(Clone, Copy, Debug, PartialEq, Eq)]
pub enum Pace {
    AtOnce,
    /// With a pause in the middle, so that the first read is short.
    Halting,
}

const PAUSE: Duration = Duration::from_millis(10);

/// Runs a program with this on its standard input. A thread writes it, since the
/// program may print before it has read all; it may also leave some unread.
pub fn run(program: &str, input: &[u8], pace: Pace) -> io::Result<Output> {
    let mut child = Command::new(program)
        .stdin(Stdio::piped())
        .stdout(Stdio::piped())
        .spawn()?;
    let mut pipe = child.stdin.take().expect("a pipe");
    let write = move || {
        let (first, rest) = input.split_at(input.len() / 2);
        pipe.write_all(first)?;
        if pace == Pace::Halting {
            thread::sleep(PAUSE);
        }
        pipe.write_all(rest)
    };
    thread::scope(|scope| {
        let writer = scope.spawn(write);
        let output = child.wait_with_output()?;
        match writer.join().expect("no panic") {
            Err(error) if error.kind() != ErrorKind::BrokenPipe => Err(error),
            _ => Ok(output),
        }
    })
}

/// The file in a temporary one.
fn kept(seed: u64, number: u64, file: &[u8]) -> io::Result<PathBuf> {
    let path = env::temp_dir().join(format!("statement-{}-{seed}-{number}", process::id()));
    fs::write(&path, file)?;
    Ok(path)
}

impl Outcome {
    fn of(statement: &str) -> Self {
        match statement.strip_prefix('X') {
            Some(numbers) => {
                let number = numbers[..3].trim_start().parse();
                Outcome::Refusal(number.expect("a refusal's number"))
            }
            None if statement.is_empty() => Outcome::Nothing,
            None => Outcome::Book,
        }
    }
}

impl Report {
    /// The accepted files, and `NUMBER×TIMES` for each refusal.
    pub fn coverage(&self) -> Vec<String> {
        let times = |outcome| self.outcomes.get(&outcome).copied().unwrap_or(0);
        let mut refusals = "X:".to_string();
        for (outcome, times) in &self.outcomes {
            if let Outcome::Refusal(number) = outcome {
                refusals += &format!(" {number}×{times}");
            }
        }
        vec![
            format!("B and H: {}", times(Outcome::Book)),
            format!("nothing: {}", times(Outcome::Nothing)),
            refusals,
        ]
    }

    pub fn verdict(&self) -> String {
        format!("{} passed, {} failed", self.passed, self.failed)
    }
}

#[cfg(test)]
mod tests {
    use super::*;
    use std::os::unix::process::ExitStatusExt;
    use std::process::ExitStatus;

    fn output(stdout: &[u8], code: i32) -> Output {
        Output {
            status: ExitStatus::from_raw(code << 8),
            stdout: stdout.to_vec(),
            stderr: Vec::new(),
        }
    }

    /// The statement of the first 65,536 bytes.
    fn right(file: &[u8]) -> Vec<u8> {
        let file = &file[..file.len().min(65_536)];
        statement(file).into_bytes()
    }

    #[test]
    fn a_right_program() {
        let report = compare(200, 1, |_, file| Ok(output(&right(file), 0))).unwrap();
        assert_eq!(report.verdict(), "200 passed, 0 failed");
        assert_eq!(report.faults, Vec::<String>::new());
        let times: u64 = report.outcomes.values().sum();
        assert_eq!(times, 200);
        assert!(report.outcomes.contains_key(&Outcome::Book));
        assert!(report.outcomes.contains_key(&Outcome::Refusal(21)));
    }

    /// One prints too much, one has another exit status.
    #[test]
    fn wrong_programs() {
        let noisy = compare(3, 1, |_, file| {
            let printed = [&right(file)[..], b"\n"].concat();
            Ok(output(&printed, 0))
        });
        let failing = compare(3, 2, |_, file| Ok(output(&right(file), 1)));
        for (seed, report) in [(1, noisy.unwrap()), (2, failing.unwrap())] {
            assert_eq!(report.verdict(), "0 passed, 3 failed");
            for (number, fault) in report.faults.iter().enumerate() {
                let (first, _) = fault.split_once('\n').unwrap();
                let (_, path) = first.split_once(": ").unwrap();
                let expected = random_files::any(&mut Random::seeded(seed, number as u64));
                assert_eq!(fs::read(path).unwrap(), expected);
                fs::remove_file(path).unwrap();
            }
        }
    }

    /// More than a pipe holds, to a program that reads it and to one that doesn't.
    #[test]
    fn big_inputs() {
        let input = vec![b'x'; 300_000];
        for pace in [Pace::AtOnce, Pace::Halting] {
            assert_eq!(run("cat", &input, pace).unwrap().stdout, input);
            assert_eq!(run("true", &input, pace).unwrap(), output(b"", 0));
            assert_eq!(run("false", &input, pace).unwrap(), output(b"", 1));
            assert_eq!(run("cat", b"", pace).unwrap(), output(b"", 0));
        }
        assert!(run("/no/such/program", b"", Pace::AtOnce).is_err());
    }

    #[test]
    fn coverage_as_printed() {
        let mut report = Report::default();
        for text in [
            "B2014\n",
            "X 21        3\n",
            "X  7        1\n",
            "X 21        9\n",
        ] {
            *report.outcomes.entry(Outcome::of(text)).or_default() += 1;
        }
        let expected = ["B and H: 1", "nothing: 0", "X: 7×1 21×2"];
        assert_eq!(report.coverage(), expected);
    }
}
