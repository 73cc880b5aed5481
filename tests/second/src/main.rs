//! The second program: the rules of the planner once more, to compare answers with.

mod batches;
mod bench;
mod brute;
mod calls;
mod examples;
mod files;
mod following;
mod lateness;
mod open;
mod plan;
mod readings;
mod reasons;
mod rules;
// What a planted mistake is looked for with has no use for the self-test.
#[cfg(not(planted))]
mod selftest;
mod texts;

use std::io::{self, BufReader, BufWriter, Read, Write};
use std::process::ExitCode;

/// A byte more than a file may have is enough to refuse it.
const READ_AT_MOST: u64 = 65_537;

fn print_bench() -> io::Result<()> {
    let mut file = Vec::new();
    io::stdin().take(READ_AT_MOST).read_to_end(&mut file)?;
    io::stdout().write_all(bench::text(&file).as_bytes())
}

fn answer_calls() -> io::Result<()> {
    calls::run(&mut BufReader::new(io::stdin()), &mut BufWriter::new(io::stdout()))
}

fn print_runs() -> io::Result<()> {
    calls::run_over(&mut BufReader::new(io::stdin()), &mut BufWriter::new(io::stdout()))
}

fn status(result: io::Result<()>) -> ExitCode {
    match result {
        Ok(()) => ExitCode::SUCCESS,
        Err(error) => {
            eprintln!("second: {error}");
            ExitCode::from(2)
        }
    }
}

fn main() -> ExitCode {
    match std::env::args().nth(1).as_deref() {
        Some("bench") => status(print_bench()),
        Some("calls") => status(answer_calls()),
        Some("runs") => status(print_runs()),
        #[cfg(not(planted))]
        Some("selftest") => selftest::run(),
        _ => {
            eprintln!("usage: second bench | calls | runs | selftest");
            ExitCode::from(2)
        }
    }
}
