//! The proved judge and the proved exposure beside other checkers: compared on random traces, fuzzed,
//! and timed; the proved intervals, compared on random and on small traces, and fuzzed; the proved
//! writer, compared on random lists of calls; and the proved pages of findings, compared on random
//! findings areas, fuzzed, and timed.

mod areas;
mod asking;
mod bench;
mod differential;
mod exposing;
mod exposure;
mod exposure_fuzz;
mod fuzz;
mod growth;
mod interval;
mod interval_fuzz;
mod judge;
mod lists;
mod mixes;
mod no_bytes;
mod page_fuzz;
mod pages;
mod plain;
mod plain_pages;
mod plot;
mod printing;
mod progress;
mod ranges;
mod shared;
mod workloads;
mod writer;
mod writing;

use asking::Asking;
use differential::Judge;
use exposing::Exposing;
use printing::Layout;
use std::io::{self, ErrorKind, Write};
use std::process::ExitCode;
use writing::Writer;

const HELP: &str = "\
harness: the proved judge beside other checkers

usage:
  harness differential [TRACES [SEED]]   compare the judges, the exposures and the intervals with
                                         the unrelated checker on random traces (200,000 of seed 1),
                                         the intervals on small traces too, the writer on as many
                                         lists of calls, and the pages of as many findings areas
  harness fuzz [STRINGS [SEED]]          give the proved judge, exposure and interval arbitrary
                                         strings of bytes (1,000,000 of seed 1), and the proved
                                         pages as many
  harness bench [SVG]                    time the proved judge beside an implementation in plain Rust
                                         and a checker of ranges as PMTest has them; the plot goes to SVG
  harness growth                         time it against the records of a trace and the bytes named,
                                         the exposure against the records, and the pages against
                                         their rows
  harness --help                         print this text

TRACES and STRINGS are numbers from 1, SEED is a number; digits only.
Exit status: 0 as expected, 1 a difference or a violation, 2 bad usage or files.
";

const PROVED: Judge = Judge {
    name: "proved",
    call: judge::judge,
};

const PLAIN: Judge = Judge {
    name: "plain",
    call: plain::judge,
};

/// The judges that `differential` compares with the unrelated checker.
const JUDGES: [Judge; 2] = [PROVED, PLAIN];

const PROVED_EXPOSURE: Exposing = Exposing {
    name: "proved",
    call: exposure::exposure,
};

/// The exposures that `differential` compares with the unrelated one.
const EXPOSURES: [Exposing; 2] = [
    PROVED_EXPOSURE,
    Exposing {
        name: "plain",
        call: plain::exposure,
    },
];

const PROVED_INTERVAL: Asking = Asking {
    name: "proved",
    call: interval::interval,
};

/// The intervals that `differential` compares with the unrelated ones.
const INTERVALS: [Asking; 2] = [
    PROVED_INTERVAL,
    Asking {
        name: "plain",
        call: plain::interval,
    },
];

/// The writer that `differential` compares with the unrelated one.
const WRITER: Writer = Writer {
    name: "proved",
    call: writer::call,
};

const PROVED_PAGES: Layout = Layout {
    name: "proved",
    call: pages::lay_out,
};

/// The layouts that `differential` compares with the unrelated one.
const LAYOUTS: [Layout; 2] = [
    PROVED_PAGES,
    Layout {
        name: "plain",
        call: plain_pages::lay_out,
    },
];

const DEFAULT_SEED: u64 = 1;

/// Lines for standard error.
#[derive(Debug, PartialEq, Eq)]
enum Failure {
    /// A difference or a violation: exit status 1.
    Found(String),
    /// Bad usage or files: exit status 2.
    Usage(String),
}

fn main() -> ExitCode {
    let args: Result<Vec<String>, _> = std::env::args_os()
        .skip(1)
        .map(|arg| arg.into_string())
        .collect();
    let result = match &args {
        Ok(args) => run(&args.iter().map(String::as_str).collect::<Vec<_>>()),
        Err(arg) => Err(Failure::Usage(format!(
            "harness: argument {arg:?} is not text in UTF-8\n"
        ))),
    };
    match result.and_then(|text| print(&text)) {
        Ok(()) => ExitCode::SUCCESS,
        Err(Failure::Found(text)) => fail(&text, 1),
        Err(Failure::Usage(text)) => fail(&text, 2),
    }
}

fn fail(text: &str, status: u8) -> ExitCode {
    eprint!("{text}");
    ExitCode::from(status)
}

/// The text for standard output.
fn run(words: &[&str]) -> Result<String, Failure> {
    match words {
        ["--help" | "-h"] => Ok(HELP.to_string()),
        ["differential", numbers @ ..] => {
            let (traces, seed) = count_and_seed(words[0], numbers, differential::TRACES)?;
            compared(traces, seed).map_err(Failure::Found)
        }
        ["fuzz", numbers @ ..] => {
            let (strings, seed) = count_and_seed(words[0], numbers, fuzz::STRINGS)?;
            fuzzed(strings, seed).map_err(Failure::Found)
        }
        ["bench"] => bench::measured()
            .map(|rows| bench::table(&rows))
            .map_err(Failure::Found),
        ["bench", svg] => bench_with_plot(svg),
        ["growth"] => Ok(growth::command()),
        [] => Err(usage("harness: a command is missing")),
        [word, ..] => Err(usage(&format!("harness: no command `{word}`"))),
    }
}

/// The judges, the exposures and the intervals on so many traces, the writer on as many lists of calls,
/// and the layouts on as many findings areas.
fn compared(traces: u64, seed: u64) -> Result<String, String> {
    let text = differential::command(&JUDGES, traces, seed)?;
    let text = text + &exposing::command(&EXPOSURES, traces, seed)?;
    let text = text + &asking::command(&INTERVALS, traces, seed)?;
    let text = text + &writing::command(&WRITER, traces, seed)?;
    Ok(text + &printing::command(&LAYOUTS, traces, seed)?)
}

/// The judge, the exposure and the interval on so many strings, and the pages on as many.
fn fuzzed(strings: u64, seed: u64) -> Result<String, String> {
    let text = fuzz::command(&PROVED, strings, seed)?;
    let text = text + &exposure_fuzz::command(&PROVED, &PROVED_EXPOSURE, strings, seed)?;
    let text = text + &interval_fuzz::command(&PROVED, &PROVED_INTERVAL, strings, seed)?;
    Ok(text + &page_fuzz::command(&PROVED_PAGES, strings, seed)?)
}

/// The table, after the plot has been written.
fn bench_with_plot(svg: &str) -> Result<String, Failure> {
    let rows = bench::measured().map_err(Failure::Found)?;
    match std::fs::write(svg, plot::svg(&rows)) {
        Ok(()) => Ok(bench::table(&rows)),
        Err(error) => Err(Failure::Usage(format!("{svg}: {error}\n"))),
    }
}

fn usage(message: &str) -> Failure {
    Failure::Usage(format!("{message}; see `harness --help`\n"))
}

/// A count from 1 and a seed, each with its default.
fn count_and_seed(command: &str, words: &[&str], count: u64) -> Result<(u64, u64), Failure> {
    let numbers = match words {
        [] => Some((count, DEFAULT_SEED)),
        [count] => number(count).map(|count| (count, DEFAULT_SEED)),
        [count, seed] => number(count).zip(number(seed)),
        _ => None,
    };
    match numbers {
        Some((count, seed)) if count > 0 => Ok((count, seed)),
        _ => Err(usage(&format!(
            "harness {command}: not a count from 1 and a seed: `{}`",
            words.join(" ")
        ))),
    }
}

/// A number of digits only, of at most 64 bits.
fn number(word: &str) -> Option<u64> {
    let digits = word.bytes().all(|byte| byte.is_ascii_digit());
    word.parse().ok().filter(|_| digits)
}

/// Writes to standard output. A pipe closed by its reader is no failure.
fn print(text: &str) -> Result<(), Failure> {
    let mut out = io::stdout().lock();
    match out.write_all(text.as_bytes()).and_then(|()| out.flush()) {
        Err(error) if error.kind() != ErrorKind::BrokenPipe => {
            Err(Failure::Usage(format!("standard output: {error}\n")))
        }
        _ => Ok(()),
    }
}
