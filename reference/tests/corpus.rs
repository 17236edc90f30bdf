//! The corpus: what it covers, its bounds, that it is the same each time, and that the stored
//! one is the same as the one made anew.

use reference::corpus::{papers_folder, Corpus};
use reference::direct::Run;
use reference::no_bytes::{self, Beside};
use reference::orders;
use reference::trace::{open, read, TRAILER};
use reference::{Event, Kind, Outcome, Record};
use std::path::Path;

fn build() -> Corpus {
    Corpus::build(&papers_folder(), &mut |_| {}).expect("the corpus is made")
}

#[test]
fn same_each_time() {
    let (one, other) = (build(), build());
    assert_eq!(one.to_bytes(), other.to_bytes());
    assert_eq!(one.summary(), other.summary());
}

#[test]
fn stored_corpus_is_the_same() {
    let vectors = Path::new(env!("CARGO_MANIFEST_DIR")).join("../crates/vectors");
    let (stdin, stdout) = (vectors.join("stdin"), vectors.join("stdout"));
    let corpus = build();
    let stored = std::fs::read(stdin).expect("the stored corpus is readable");
    assert!(stored == corpus.to_bytes(), "the stored corpus differs");
    let stored = std::fs::read_to_string(stdout).expect("the stored summary is readable");
    assert_eq!(stored, corpus.summary());
}

#[test]
fn covers_every_answer() {
    let corpus = build();
    assert!(corpus.entries.len() >= 500);
    assert!(corpus.to_bytes().len() <= 1_600_000);
    let both = corpus.entries.iter().filter(|entry| entry.both_ways);
    assert!(both.count() >= 500);
    let outcomes = || corpus.entries.iter().map(|entry| &entry.outcome);
    for number in [1, 2, 3, 4, 5, 6, 7, 9, 11, 12, 13, 14, 18] {
        let refused = outcomes().filter_map(Outcome::refusal);
        let count = refused.filter(|refusal| refusal.number == number).count();
        assert!(count >= 3, "refused by {number}: {count}");
    }
    let mut refused = outcomes().filter_map(Outcome::refusal);
    assert!(refused.all(|refusal| refusal.number != 8));
    for kind in Kind::ALL {
        let reports = outcomes().filter_map(Outcome::report);
        let findings = reports.flat_map(|report| &report.findings);
        let count = findings.filter(|finding| finding.kind == kind).count();
        assert!(count >= 50, "{kind:?}: {count}");
    }
}

/// Every kind of event with a range of no bytes is accepted, and refused by 9. Each accepted trace is
/// judged the same, but for these events and the event numbers, without them.
#[test]
fn covers_ranges_of_no_bytes() {
    let corpus = build();
    let (mut accepted, mut past) = (no_bytes::Counts::default(), no_bytes::Counts::default());
    let mut compared = 0;
    for entry in &corpus.entries {
        let Ok(body) = open(&entry.case.trace) else {
            continue;
        };
        let records: Vec<_> = body.record_bytes().map(read).collect();
        match &entry.outcome {
            Outcome::Accepted(report) => {
                let records: Vec<Record> = records.into_iter().flatten().collect();
                assert_eq!(records.len(), report.findings.len());
                let counts = no_bytes::Counts::of(records.iter().map(|record| record.event));
                compared += usize::from(counts.sum() > 0);
                accepted.join(&counts);
                compare_without(body.lines, &records);
            }
            Outcome::Refused(refusal) if refusal.number == 9 => {
                past.add(records[refusal.record - 1].ok().map(|record| record.event));
            }
            Outcome::Refused(_) => {}
        }
    }
    println!("{compared} traces with ranges of no bytes: {accepted}; refused by 9: {past}");
    assert!(accepted.least() >= 50 && past.least() >= 5);
}

/// Orders between ranges that touch, or of which one has no byte inside the other, are accepted; every
/// order that 18 refuses has ranges that share a byte, and none of those accepted has.
#[test]
fn covers_shared_bytes() {
    let corpus = build();
    let (mut accepted, mut refused) = (orders::Counts::default(), orders::Counts::default());
    let mut past = orders::Counts::default();
    for entry in &corpus.entries {
        let Ok(body) = open(&entry.case.trace) else {
            continue;
        };
        let event = |bytes| read(bytes).map(|record| record.event).ok();
        let events: Vec<Option<Event>> = body.record_bytes().map(event).collect();
        match &entry.outcome {
            Outcome::Accepted(_) => orders::count(&mut accepted, events.into_iter().flatten()),
            Outcome::Refused(refusal) => {
                let counts = match refusal.number {
                    9 => &mut past,
                    18 => &mut refused,
                    _ => continue,
                };
                orders::count(counts, events[refusal.record - 1]);
            }
        }
    }
    println!("orders accepted, refused by 18 and by 9: {accepted:?}, {refused:?}, {past:?}");
    assert_eq!(accepted[orders::SHARE], 0);
    assert!(accepted[1..].iter().all(|&count| count > 100));
    assert!(refused[orders::SHARE] > 100 && past[orders::SHARE] > 10);
    assert_eq!(refused[1..], [0; 3]);
}

fn compare_without(lines: u16, records: &[Record]) {
    let mut beside = Beside::<Run>::fresh(lines);
    for record in records {
        beside.give(record).expect("the trace is accepted");
    }
    beside.compare();
}

/// Reads the file back by the words of its format.
#[test]
fn file_reads_back() {
    let corpus = build();
    let bytes = corpus.to_bytes();
    let mut rest = bytes.as_slice();
    let mut take = |count: usize| {
        let (part, behind) = rest.split_at(count);
        rest = behind;
        part
    };
    for entry in &corpus.entries {
        let header = take(16);
        let length = |at: usize| {
            let field = &header[4 * at..4 * at + 4];
            u32::from_le_bytes(field.try_into().expect("four bytes")) as usize
        };
        let (name, trace, area) = (take(length(0)), take(length(1)), take(length(2)));
        let text = take(length(3));
        assert!(name.len() <= 64 && trace.len() <= 65_537);
        assert!(area.len() <= 65_536 && text.len() <= 262_144);
        assert_eq!(name, entry.case.name.as_bytes());
        assert_eq!(trace, entry.case.trace);
        let written = match &entry.outcome {
            Outcome::Accepted(report) => 12 * report.totals.events,
            Outcome::Refused(_) => 0,
        };
        assert!(area[written..].iter().all(|&byte| byte == 0xa5));
        let head: &[u8] = if written > 0 || entry.outcome.report().is_some() {
            b"trace "
        } else {
            b"refused "
        };
        assert!(text.starts_with(head) && text.ends_with(b"\n"));
    }
    assert!(rest.is_empty());
}

/// The sums that the names call wrapped are right in 32 bits.
#[test]
fn wrapped_sums_wrap() {
    let corpus = build();
    let mut wrapped = 0;
    for entry in &corpus.entries {
        if !entry.case.name.starts_with("refused/5-wrap-") {
            continue;
        }
        let trace = &entry.case.trace;
        let trailer = &trace[trace.len() - TRAILER..];
        let field =
            |at: usize| u32::from_le_bytes(trailer[at..at + 4].try_into().expect("four bytes"));
        let sum = field(4)
            .wrapping_add(field(8).wrapping_mul(12))
            .wrapping_add(16);
        assert_eq!(sum as usize, trace.len(), "{}", entry.case.name);
        assert_eq!(open(trace), Err(5));
        wrapped += 1;
    }
    assert!(wrapped >= 5);
}

#[test]
fn summary_adds_up() {
    let summary = build().summary();
    let numbers: Vec<usize> = summary
        .lines()
        .map(|line| {
            line.rsplit(' ')
                .next()
                .expect("a word")
                .parse()
                .expect("a number")
        })
        .collect();
    // 8 has no line.
    assert_eq!(numbers.len(), 2 + 14 + 9 + 1);
    assert_eq!(
        numbers[0],
        numbers[1] + numbers[2..16].iter().sum::<usize>()
    );
    assert_eq!(numbers[10], 0, "refused by 10");
    assert!(summary.contains("\nrefused by 7 ") && summary.contains("\nrefused by 9 "));
    assert!(summary.contains("\nrefused by 10 0\n") && !summary.contains("refused by 8"));
    assert!(summary.starts_with("traces ") && summary.ends_with("\ndiffer 0\n"));
    let lines: Vec<&str> = summary.lines().collect();
    assert!(lines[14].starts_with("refused by 14 ") && lines[15].starts_with("refused by 18 "));
    assert!(lines[16].starts_with("none "));
}
