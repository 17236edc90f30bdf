//! The mean exposure of whole traces: answers written by hand, the order of refusals, and the run
//! after the events of random traces.

use reference::direct::Run;
use reference::images;
use reference::random::{self, Random};
use reference::script::Script;
use reference::trace::{self, assemble, encode, raw_record, raw_trailer, MARK, MAX_TRACE, RECORD};
use reference::Refusal;
use reference::{exposure, exposure_by_images, judge, singly, Event, Exposure, Range, Record};
use std::fs;
use std::path::Path;

const NOTHING: Range = Range::new(0, 0);

fn mean(quotient: usize, remainder: usize, divisor: usize) -> Result<Exposure, Refusal> {
    Ok(Exposure {
        quotient,
        remainder,
        divisor,
    })
}

fn refused(number: u8, record: usize) -> Result<Exposure, Refusal> {
    Err(Refusal { number, record })
}

fn answers(trace: &[u8], expected: Result<Exposure, Refusal>) {
    assert_eq!(exposure(trace), expected, "{trace:?}");
    assert_eq!(exposure_by_images(trace), expected, "{trace:?}");
}

/// The trace of events, parted by semicolons, in a window of so many lines.
fn trace_of(lines: u16, events: &str) -> Vec<u8> {
    let text = format!("lines {lines}\n{}", events.replace(';', "\n"));
    Script::parse(&text).expect("the script is good").trace()
}

#[test]
fn traces_written_by_hand() {
    for (lines, events, expected) in [
        (1, "", refused(17, 0)),
        (2, "store 0/8; fence", refused(17, 0)),
        (2, "write-back 0/8; store 0/8; fence", refused(17, 0)),
        (
            1,
            "store 0/8; write-back 0/8; fence; store 0/8",
            refused(17, 0),
        ),
        (1, "store 63/1; write-back 0/1; fence", mean(1, 0, 1)),
        (
            64,
            "store 0/4096; write-back 0/4096; fence",
            mean(1, 0, 4_096),
        ),
        (
            2,
            "begin; store 60/8; write-back 64/1; fence; end; fence",
            mean(1, 0, 4),
        ),
        // 5 bytes of 3 epochs, 2 of 1.
        (
            2,
            "fence; store 0/5; fence; fence; store 8/2; write-back 0/64; fence",
            mean(2, 3, 7),
        ),
        // No byte is stored or written back.
        (1, "store 0/0; write-back 0/8; fence", refused(17, 0)),
        (1, "store 0/8; write-back 64/0; fence", refused(17, 0)),
        // 8 bytes of 2 epochs.
        (
            1,
            "store 0/8; write-back 0/0; fence; write-back 0/8; store 4/0; fence; store 0/0",
            mean(2, 0, 8),
        ),
        // The request's whole run: 8 bytes of 1 epoch, 8 of 2.
        (
            2,
            "store 0/8; store 64/8; write-back 0/8; fence; ordered 0/8 before 64/8;
            persisted 64/8; write-back 0/128; fence; persisted 0/128",
            mean(1, 8, 16),
        ),
    ] {
        answers(&trace_of(lines, events), expected);
    }
}

/// Where the judge refuses a trace there is no exposure, whatever is closed. 14 is never given.
#[test]
fn refusals() {
    let event = |event| encode(&Record { event, site: 5 });
    let (a, far) = (Range::new(0, 8), Range::new(60, 8));
    let closed = [
        event(Event::Store(a)),
        event(Event::WriteBack(a)),
        event(Event::Fence),
    ];
    let behind =
        |records: &[[u8; RECORD]]| assemble(1, &[1, 2, 3], &[&closed[..], records].concat());
    answers(&behind(&[]), mean(1, 0, 8));
    let trailer = |mark, count, lines, zero| {
        let records = closed.concat();
        [&records[..], &raw_trailer(mark, 0, count, lines, zero)].concat()
    };
    answers(&trailer(MARK, 3, 1, 0), mean(1, 0, 8));
    answers(&[], refused(1, 0));
    answers(&trailer(MARK, 3, 1, 0)[37..], refused(1, 0));
    answers(&vec![0; MAX_TRACE + 1], refused(2, 0));
    answers(&trailer(*b"PTRB", 3, 1, 0), refused(3, 0));
    answers(&trailer(MARK, 3, 0, 0), refused(4, 0));
    answers(&trailer(MARK, 3, 65, 0), refused(4, 0));
    answers(&trailer(MARK, 3, 1, 1), refused(4, 0));
    answers(&trailer(MARK, 2, 1, 0), refused(5, 0));
    let begin = event(Event::Begin);
    for (record, number) in [
        (raw_record(9, 0, NOTHING, NOTHING, 0), 6),
        (raw_record(Event::FENCE, 1, NOTHING, NOTHING, 0), 7),
        (raw_record(Event::FENCE, 0, a, NOTHING, 0), 7),
        (event(Event::Persisted(Range::new(65, 0))), 9),
        (event(Event::Store(far)), 9),
        (event(Event::Ordered(a, far)), 9),
        (event(Event::Ordered(a, a)), 18),
        (event(Event::Ordered(a, Range::new(7, 1))), 18),
        (event(Event::End), 11),
        (event(Event::Log(a)), 11),
    ] {
        answers(&behind(&[record]), refused(number, 4));
        answers(&assemble(1, &[], &[record, begin]), refused(number, 1));
    }
    answers(&behind(&[begin; 9]), refused(12, 12));
    answers(&behind(&[begin; 8]), refused(13, 0));
    answers(&assemble(1, &[], &[begin]), refused(13, 0));
    // The findings area of such a trace is as long as the trace at most.
    answers(&assemble(64, &[], &[closed[2]; 5_460]), refused(17, 0));
}

/// The exposure of a trace is that of the run that took its events singly; and the trace is refused
/// where the judge refuses it.
#[test]
fn random_traces() {
    let mut random = Random::new(41);
    let (mut given, mut by_images, mut refused) = (0, 0, [0; 19]);
    for _ in 0..20_000 {
        let shape = match random.below(4) {
            0 => random::any_shape(&mut random),
            _ => random::small_shape(&mut random),
        };
        let trace = match random.below(3) {
            0 => random::damaged(&mut random, &shape),
            _ => random::valid(&mut random, &shape),
        };
        let answer = exposure(&trace);
        match judge(&trace, MAX_TRACE).refusal() {
            Some(refusal) => assert_eq!(answer, Err(refusal), "{trace:?}"),
            None => assert_eq!(answer, singly_given(&trace), "{trace:?}"),
        }
        if images::small_enough(&trace) {
            assert_eq!(exposure_by_images(&trace), answer, "{trace:?}");
            by_images += 1;
        }
        match answer {
            Ok(_) => given += 1,
            Err(refusal) => refused[usize::from(refusal.number)] += 1,
        }
    }
    println!("{given} exposures, refused {refused:?}, {by_images} by images too");
    assert!(given > 4_000 && by_images > 18_000);
    for number in [1, 3, 4, 5, 6, 7, 9, 11, 12, 13, 17, 18] {
        assert!(refused[number] > 10, "{number}: {}", refused[number]);
    }
    assert_eq!(refused[8], 0);
}

/// The exposure of the run that took the events of an accepted trace one by one.
fn singly_given(trace: &[u8]) -> Result<Exposure, Refusal> {
    let body = trace::open(trace).expect("the trace is accepted");
    let (mut run, _) = singly::fresh::<Run>(body.lines);
    for bytes in body.record_bytes() {
        let record = trace::read(bytes).expect("the trace is accepted");
        singly::give(&mut run, &record).expect("the trace is accepted");
    }
    singly::exposure(&run)
}

/// What the gate gives to the program `pmexposure`, and the line that it has to print.
#[test]
fn stored_trace_has_the_stored_mean() {
    let stored = Path::new(env!("CARGO_MANIFEST_DIR")).join("../crates/pmexposure");
    let trace = fs::read(stored.join("stdin")).expect("there is a trace");
    let line = fs::read_to_string(stored.join("stdout")).expect("there is a line");
    answers(&trace, mean(2, 24, 48));
    assert_eq!(line, "exposure 2 24 48\n");
}
