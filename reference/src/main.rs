//! The command `reference`.

use reference::calls::Calls;
use reference::page_calls::PageCalls;
use reference::pages::{self, Refused};
use reference::script::{self, Script};
use reference::trace::{MAX_TRACE, RECORD};
use reference::{check, corpus, exposure, exposure_by_images, findings_bytes, images};
use reference::{interval, interval_by_images, judge, judge_by_images, listing};
use reference::{Exposure, Outcome, Refusal};
use std::fs::File;
use std::io::{self, ErrorKind, Read, Write};
use std::path::Path;
use std::process::ExitCode;

const HELP: &str = "\
reference: an unrelated checker for traces of persistent-memory events

usage:
  reference write SCRIPT [TRACE]     write the trace of a script to a file or to standard output
  reference judge [--images] TRACE   print the listing of a trace, or `refused N at R`
  reference check SCRIPT...          judge each script's trace both ways, and compare it with the
                                     script's `expect` and `refused` lines
  reference corpus CORPUS SUMMARY    write the corpus and its summary
  reference calls CALLS ANSWERS      write calls on single events and of the writer, and the text
                                     of their answers
  reference findings TRACE           write the findings area of a trace to standard output, or
                                     print `refused N at R`
  reference pages FINDINGS           print the pages of a findings area, or `refused N at P`
  reference page-calls CALLS ANSWERS
                                     write calls of the pages, and the text of their answers
  reference exposure [--images] TRACE
                                     print the mean exposure of a trace as `exposure Q R D`, its
                                     quotient, remainder and divisor, or `refused N at R`
  reference interval [--images] BYTE TRACE
                                     print the persist interval of a byte after a trace, with its
                                     epochs and the events that it comes from, and the site of each
                                     of these, or `refused N at R`
  reference --help                   print this text

SCRIPT, FINDINGS and the TRACE of `judge`, `findings`, `exposure` and `interval` may be `-` for
standard input. BYTE is a number from 0 to 65535.
`--images` enumerates crash images, for small traces.
Exit status: 0 done, 1 a script differs, 2 bad usage or files.
";

/// The commands that need arguments.
const COMMANDS: [&str; 10] = [
    "write",
    "judge",
    "check",
    "corpus",
    "calls",
    "findings",
    "pages",
    "page-calls",
    "exposure",
    "interval",
];

/// A line for standard error; the exit status is 2.
type Failure = String;

fn main() -> ExitCode {
    let args: Vec<String> = match std::env::args_os()
        .skip(1)
        .map(|a| a.into_string())
        .collect()
    {
        Ok(args) => args,
        Err(arg) => return fail(&format!("argument {arg:?} is not text in UTF-8")),
    };
    let words: Vec<&str> = args.iter().map(String::as_str).collect();
    match run(&words) {
        Ok(status) => status,
        Err(failure) => fail(&failure),
    }
}

fn fail(failure: &str) -> ExitCode {
    eprintln!("{failure}");
    ExitCode::from(2)
}

fn run(words: &[&str]) -> Result<ExitCode, Failure> {
    match words {
        ["--help" | "-h"] => print(HELP.as_bytes()),
        ["write", script] => print(&read_script(script)?.trace()),
        ["write", script, trace] => write_file(trace, &read_script(script)?.trace()),
        ["judge", "--images", trace] => judge_command(trace, true),
        ["judge", trace] if *trace != "--images" => judge_command(trace, false),
        ["check", scripts @ ..] if !scripts.is_empty() => check_command(scripts),
        ["corpus", corpus, summary] => corpus_command(corpus, summary),
        ["calls", calls, answers] => calls_command(calls, answers),
        ["findings", trace] => findings_command(trace),
        ["pages", findings] => pages_command(findings),
        ["page-calls", calls, answers] => page_calls_command(calls, answers),
        ["exposure", "--images", trace] => exposure_command(trace, true),
        ["exposure", trace] if *trace != "--images" => exposure_command(trace, false),
        ["interval", "--images", byte, trace] => interval_command(byte, trace, true),
        ["interval", byte, trace] if *byte != "--images" => interval_command(byte, trace, false),
        [] => Err("reference: a command is missing; see `reference --help`".to_string()),
        [command, ..] if COMMANDS.contains(command) => Err(format!(
            "reference {command}: wrong arguments; see `reference --help`"
        )),
        [word, ..] => Err(format!(
            "reference: no command `{word}`; see `reference --help`"
        )),
    }
}

fn judge_command(name: &str, by_images: bool) -> Result<ExitCode, Failure> {
    let trace = read_trace(name)?;
    print(listing(&judged(name, &trace, by_images)?).as_bytes())
}

/// One byte more than the longest trace is enough to refuse a longer one.
fn read_trace(name: &str) -> Result<Vec<u8>, Failure> {
    read_up_to(name, MAX_TRACE as u64 + 1)
}

fn judged(name: &str, trace: &[u8], by_images: bool) -> Result<Outcome, Failure> {
    if !by_images {
        return Ok(judge(trace, MAX_TRACE));
    }
    few_images(name, trace)?;
    Ok(judge_by_images(trace, MAX_TRACE))
}

/// A failure if the trace has too many crash images.
fn few_images(name: &str, trace: &[u8]) -> Result<(), Failure> {
    if images::small_enough(trace) {
        Ok(())
    } else {
        Err(format!("{name}: too many crash images to enumerate"))
    }
}

fn exposure_command(name: &str, by_images: bool) -> Result<ExitCode, Failure> {
    let trace = read_trace(name)?;
    let answer = if by_images {
        few_images(name, &trace)?;
        exposure_by_images(&trace)
    } else {
        exposure(&trace)
    };
    let line = match answer {
        Ok(Exposure {
            quotient,
            remainder,
            divisor,
        }) => format!("exposure {quotient} {remainder} {divisor}\n"),
        Err(refusal) => refusal_line(refusal),
    };
    print(line.as_bytes())
}

fn interval_command(byte: &str, name: &str, by_images: bool) -> Result<ExitCode, Failure> {
    let byte = script::number(byte).map_err(|mistake| format!("reference interval: {mistake}"))?;
    let (byte, trace) = (usize::from(byte), read_trace(name)?);
    let answer = if by_images {
        few_images(name, &trace)?;
        interval_by_images(&trace, byte)
    } else {
        interval(&trace, byte)
    };
    let text = match answer {
        Ok(interval) => interval.text(byte),
        Err(refusal) => refusal_line(refusal),
    };
    print(text.as_bytes())
}

fn refusal_line(Refusal { number, record }: Refusal) -> String {
    format!("refused {number} at {record}\n")
}

fn check_command(names: &[&str]) -> Result<ExitCode, Failure> {
    let mut status = 0;
    for name in names {
        match read_script(name) {
            Ok(script) => {
                let (line, same) = check_line(name, &script);
                print(line.as_bytes())?;
                status = status.max(u8::from(!same));
            }
            Err(failure) => {
                eprintln!("{failure}");
                status = 2;
            }
        }
    }
    Ok(ExitCode::from(status))
}

/// The line that `check` prints for a script, and whether nothing differs.
fn check_line(name: &str, script: &Script) -> (String, bool) {
    let checked = check::check(script);
    if !checked.differences.is_empty() {
        let line = format!("{name}: differs: {}\n", checked.differences.join("; "));
        return (line, false);
    }
    let ways = if checked.both_ways {
        "both ways"
    } else {
        "direct only, too many crash images"
    };
    let (events, compared) = (script.events.len(), checked.compared);
    let line = format!("{name}: same: {events} records, {compared} lines compared, {ways}\n");
    (line, true)
}

fn corpus_command(corpus_name: &str, summary_name: &str) -> Result<ExitCode, Failure> {
    let corpus = corpus::Corpus::build(&corpus::papers_folder(), &mut |line| eprintln!("{line}"))?;
    write_file(corpus_name, &corpus.to_bytes())?;
    write_file(summary_name, corpus.summary().as_bytes())
}

fn calls_command(calls_name: &str, answers_name: &str) -> Result<ExitCode, Failure> {
    let calls = Calls::build()?;
    for line in calls.note() {
        eprintln!("{line}");
    }
    write_file(calls_name, &calls.to_bytes())?;
    write_file(answers_name, calls.numbers().as_bytes())
}

fn findings_command(name: &str) -> Result<ExitCode, Failure> {
    match judge(&read_trace(name)?, MAX_TRACE) {
        refused @ Outcome::Refused(_) => print(listing(&refused).as_bytes()),
        accepted => print(&findings_bytes(&accepted)),
    }
}

fn pages_command(name: &str) -> Result<ExitCode, Failure> {
    // One byte more than the most findings is enough to refuse a longer area.
    let most = RECORD * pages::MOST_FINDINGS;
    let findings = read_up_to(name, most as u64 + 1)?;
    match pages::lay_out(&findings, usize::MAX) {
        Ok(pages) => print(&pages),
        Err(Refused { number, position }) => {
            print(format!("refused {number} at {position}\n").as_bytes())
        }
    }
}

fn page_calls_command(calls_name: &str, answers_name: &str) -> Result<ExitCode, Failure> {
    let calls = PageCalls::build()?;
    for line in calls.note() {
        eprintln!("{line}");
    }
    write_file(calls_name, &calls.to_bytes())?;
    write_file(answers_name, &calls.text())
}

fn read_script(name: &str) -> Result<Script, Failure> {
    let text = String::from_utf8(read_up_to(name, u64::MAX)?)
        .map_err(|_| format!("{name}: not text in UTF-8"))?;
    Script::parse(&text).map_err(|mistake| format!("{name}:{}: {}", mistake.at, mistake.what))
}

/// Reads at most `limit` bytes of a file, or of standard input for `-`.
fn read_up_to(name: &str, limit: u64) -> Result<Vec<u8>, Failure> {
    let mut bytes = Vec::with_capacity(RECORD);
    let read = if name == "-" {
        io::stdin().lock().take(limit).read_to_end(&mut bytes)
    } else {
        File::open(Path::new(name)).and_then(|file| file.take(limit).read_to_end(&mut bytes))
    };
    match read {
        Ok(_) => Ok(bytes),
        Err(error) => Err(format!("{name}: {error}")),
    }
}

fn write_file(name: &str, bytes: &[u8]) -> Result<ExitCode, Failure> {
    std::fs::write(name, bytes).map_err(|error| format!("{name}: {error}"))?;
    Ok(ExitCode::SUCCESS)
}

/// Writes to standard output. A pipe closed by its reader is not an error.
fn print(bytes: &[u8]) -> Result<ExitCode, Failure> {
    let mut out = io::stdout().lock();
    match out.write_all(bytes).and_then(|()| out.flush()) {
        Err(error) if error.kind() != ErrorKind::BrokenPipe => {
            Err(format!("standard output: {error}"))
        }
        _ => Ok(ExitCode::SUCCESS),
    }
}
