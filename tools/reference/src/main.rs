//! Prints expected outputs, worked out from the paper alone. See README.md.

use std::fs;
use std::io::{self, Write};
use std::process::ExitCode;

use reference::compare::Pace;
use reference::load_time::load_time;
use reference::{agree, compare, file_cases, statement, vectors};

const USAGE: &str = "\
usage: reference rates | calendar-cases | calendar | apportionment-cases | apportionment
                 | call-cases | calls | file-cases | files | longest
                 | report-cases | reports
       reference statement
       reference agree N SEED
       reference compare PROGRAM N SEED
       reference load-time FILE ROUNDS
N and ROUNDS are whole numbers from 1 up, SEED is a whole number";

fn main() -> io::Result<ExitCode> {
    let arguments: Vec<String> = std::env::args().skip(1).collect();
    let arguments: Vec<&str> = arguments.iter().map(String::as_str).collect();
    let lines = match arguments[..] {
        ["rates"] => vectors::rates(),
        ["calendar-cases"] => vectors::calendar_input(),
        ["calendar"] => vectors::calendar_output(),
        ["apportionment-cases"] => vectors::apportionment_input(),
        ["apportionment"] => vectors::apportionment_output(),
        ["call-cases"] => vectors::call_input(),
        ["calls"] => vectors::call_output(),
        ["file-cases"] => return print(&vectors::file_input()),
        ["files"] => vectors::file_output(),
        ["longest"] => return print(&file_cases::longest()),
        ["report-cases"] => return print(&vectors::report_input()),
        ["reports"] => return print(&vectors::report_output()),
        ["statement"] => {
            let file = statement::file_from(io::stdin())?;
            return print(statement::statement(&file).as_bytes());
        }
        // None to compare is refused, as nothing would be compared.
        ["agree", lists, seed] => match (lists.parse(), seed.parse()) {
            (Ok(lists @ 1..), Ok(seed)) => return agree(lists, seed),
            _ => return Ok(usage()),
        },
        ["compare", program, files, seed] => match (files.parse(), seed.parse()) {
            (Ok(files @ 1..), Ok(seed)) => return compare(program, files, seed),
            _ => return Ok(usage()),
        },
        ["load-time", file, rounds] => match rounds.parse() {
            Ok(rounds @ 1..) => vec![load_time(&fs::read(file)?, rounds).to_string()],
            _ => return Ok(usage()),
        },
        _ => return Ok(usage()),
    };
    print_lines(&lines)
}

fn usage() -> ExitCode {
    eprintln!("{USAGE}");
    ExitCode::from(2)
}

/// The lists that failed go to standard error.
fn agree(lists: u64, seed: u64) -> io::Result<ExitCode> {
    let report = agree::agree(lists, seed);
    for fault in &report.faults {
        eprintln!("{fault}");
    }
    let mut lines = report.coverage();
    lines.push(report.verdict());
    print_lines(&lines)?;
    Ok(ExitCode::from(u8::from(report.failed > 0)))
}

/// The files that failed go to standard error, by name.
fn compare(program: &str, files: u64, seed: u64) -> io::Result<ExitCode> {
    let report = compare::compare(files, seed, |number, file| {
        let pace = if number.is_multiple_of(16) {
            Pace::Halting
        } else {
            Pace::AtOnce
        };
        compare::run(program, file, pace)
    })?;
    for fault in &report.faults {
        eprintln!("{fault}");
    }
    let mut lines = report.coverage();
    lines.push(report.verdict());
    print_lines(&lines)?;
    Ok(ExitCode::from(u8::from(report.failed > 0)))
}

fn print_lines(lines: &[String]) -> io::Result<ExitCode> {
    let text = lines.join("\n") + "\n";
    print(text.as_bytes())
}

fn print(bytes: &[u8]) -> io::Result<ExitCode> {
    io::stdout().write_all(bytes)?;
    Ok(ExitCode::SUCCESS)
}
