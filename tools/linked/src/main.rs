//! Links the archive of exported functions, compares it with tools/reference and
//! measures both. See README.md.

mod bench;
mod call;
mod calls;
mod damage;
mod exported;
mod files;
mod instructions;
mod once;
mod programs;
mod random_calls;
mod rows;
mod small_calls;
mod stack;
mod threads;
mod timing;

use std::path::Path;
use std::process::ExitCode;

use calls::Report;
use once::{once, Side};
use rows::Work;

const USAGE: &str = "\
usage: linked calls N SEED
       linked threads N SEED
       linked bench
       linked callers STATEMENT OFTEN
       linked settling OFTEN [EARLIER-OFTEN]
       linked stack
       linked once CASE ours|reference
       linked files CASE FOLDER
N is a whole number from 1 up, SEED a whole number
cases: paper";

fn main() -> ExitCode {
    let arguments: Vec<String> = std::env::args().skip(1).collect();
    let arguments: Vec<&str> = arguments.iter().map(String::as_str).collect();
    match arguments[..] {
        ["calls", count, seed] => report_of(calls::calls, count, seed),
        ["threads", count, seed] => report_of(threads::threads, count, seed),
        ["bench"] => {
            bench::bench();
            ExitCode::SUCCESS
        }
        ["stack"] => {
            bench::peak_stack();
            ExitCode::SUCCESS
        }
        ["callers", statement, often] => {
            programs::second_caller(Path::new(statement), Path::new(often));
            ExitCode::SUCCESS
        }
        ["settling", ours] => {
            programs::settling(Path::new(ours), None);
            ExitCode::SUCCESS
        }
        ["settling", ours, earlier] => {
            programs::settling(Path::new(ours), Some(Path::new(earlier)));
            ExitCode::SUCCESS
        }
        ["once", case, side] => match (Work::of_word(case), Side::of_word(side)) {
            (Some(work), Some(side)) => {
                println!("{} inputs", once(work, side));
                ExitCode::SUCCESS
            }
            _ => usage(),
        },
        ["files", case, folder] => match Work::of_word(case) {
            Some(Work::Statements(case)) => write_files(case, folder),
            _ => usage(),
        },
        _ => usage(),
    }
}

/// The calls that failed go to standard error. No calls are refused, as nothing would
/// be compared.
fn report_of(compare: fn(u64, u64) -> Report, count: &str, seed: &str) -> ExitCode {
    let (Ok(count @ 1..), Ok(seed)) = (count.parse(), seed.parse()) else {
        return usage();
    };
    let report = compare(count, seed);
    for fault in &report.faults {
        eprintln!("{fault}");
    }
    for line in report.coverage() {
        println!("{line}");
    }
    println!("{}", report.verdict());
    ExitCode::from(u8::from(report.failed > 0))
}

fn write_files(case: files::Case, folder: &str) -> ExitCode {
    match programs::write_files(case, Path::new(folder)) {
        Ok(_) => ExitCode::SUCCESS,
        Err(error) => {
            eprintln!("{folder}: {error}");
            ExitCode::FAILURE
        }
    }
}

/// The cases are those of the bench's rows, a line for each table.
fn usage() -> ExitCode {
    eprintln!("{USAGE}");
    for table in rows::tables() {
        let words = table.rows.iter().map(|work| work.word());
        eprintln!("       {}", words.collect::<Vec<_>>().join(" "));
    }
    ExitCode::from(2)
}
