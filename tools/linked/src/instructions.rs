//! Instructions, counted by valgrind's callgrind.

use std::fs::File;
use std::io::ErrorKind;
use std::path::Path;
use std::process::{Child, Command, Stdio};

use crate::once::Side;
use crate::rows::Work;

/// Of one run over a row's inputs.
#[derive(Clone, Copy)]
pub struct Counts {
    pub ours: f64,
    pub reference: f64,
}

/// Of a row, both sides at once; nothing where valgrind is missing. Each is
/// counted in a process of its own, which runs this program's `once`.
pub fn of_row(work: Work) -> Option<Counts> {
    let ours = once_started(work, Side::Ours)?;
    let reference = once_started(work, Side::Reference)?;
    Some(Counts {
        ours: collected(ours) as f64,
        reference: collected(reference) as f64,
    })
}

fn once_started(work: Work, side: Side) -> Option<Child> {
    let program = std::env::current_exe().expect("this program's path");
    let mut command = callgrind();
    command.arg("--toggle-collect=*measured*").arg(program);
    command.args(["once", &work.word(), side.word()]);
    started(&mut command)
}

/// Of a whole process that reads a file; nothing where valgrind is missing.
pub fn of_process(program: &Path, input: &Path) -> Option<f64> {
    let input = File::open(input).expect("a file that can be read");
    let mut command = callgrind();
    command.arg(program).stdin(input);
    started(&mut command).map(|process| collected(process) as f64)
}

fn callgrind() -> Command {
    let mut command = Command::new("valgrind");
    command.args(["--tool=callgrind", "--callgrind-out-file=/dev/null"]);
    command.stdout(Stdio::null()).stderr(Stdio::piped());
    command
}

fn started(command: &mut Command) -> Option<Child> {
    match command.spawn() {
        Ok(process) => Some(process),
        Err(error) if error.kind() == ErrorKind::NotFound => None,
        Err(error) => panic!("valgrind: {error}"),
    }
}

fn collected(process: Child) -> u64 {
    let output = process.wait_with_output().expect("valgrind's words");
    let words = String::from_utf8_lossy(&output.stderr);
    assert!(output.status.success(), "{words}");
    count_in(&words).expect("a count of valgrind's")
}

/// The number in the line that says what was collected.
fn count_in(words: &str) -> Option<u64> {
    let line = words.lines().find(|line| line.contains("Collected"))?;
    line.split_whitespace().last()?.parse().ok()
}

#[cfg(test)]
mod tests {
    use super::*;

    #[test]
    fn the_collected_count() {
        let words = "==7== Events    : Ir\n==7== Collected : 62253103\n==7== \n";
        assert_eq!(count_in(words), Some(62_253_103));
        assert_eq!(count_in("==7== Events    : Ir\n"), None);
    }
}
