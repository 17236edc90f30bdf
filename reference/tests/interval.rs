//! The persist intervals of bytes after whole traces: answers written by hand, the order of refusals,
//! and the run after the events of random traces.

use reference::direct::Run;
use reference::images;
use reference::interval::OfTrace;
use reference::random::{self, Random};
use reference::script::Script;
use reference::trace::{self, assemble, encode, raw_record, raw_trailer, MARK, MAX_TRACE, RECORD};
use reference::{interval, interval_by_images, judge, singly, Event, Interval, Range, Record};
use reference::{Refusal, Way};

const NOTHING: Range = Range::new(0, 0);

type Answer = Result<OfTrace, Refusal>;

fn none() -> Answer {
    Ok(OfTrace {
        interval: Interval::None,
        sites: [0; 3],
    })
}

fn open(since: usize, [store, write_back]: [usize; 2], [one, two]: [u16; 2]) -> Answer {
    Ok(OfTrace {
        interval: Interval::Open {
            since,
            store,
            write_back,
        },
        sites: [one, two, 0],
    })
}

fn closed([from, to]: [usize; 2], events: [usize; 3], sites: [u16; 3]) -> Answer {
    let [store, write_back, fence] = events;
    let interval = Interval::Closed {
        from,
        to,
        store,
        write_back,
        fence,
    };
    Ok(OfTrace { interval, sites })
}

fn refused(number: u8, record: usize) -> Answer {
    Err(Refusal { number, record })
}

fn answers(trace: &[u8], byte: usize, expected: Answer) {
    assert_eq!(interval(trace, byte), expected, "{byte}: {trace:?}");
    let by_images = interval_by_images(trace, byte);
    assert_eq!(by_images, expected, "{byte}: {trace:?}");
}

/// The trace of events, parted by semicolons, in a window of so many lines. The site of the first
/// one is 2, and so on.
fn trace_of(lines: u16, events: &str) -> Vec<u8> {
    let text = format!("lines {lines}\n{}", events.replace("; ", "\n"));
    Script::parse(&text).expect("the script is good").trace()
}

#[test]
fn traces_written_by_hand() {
    for (lines, events, byte, expected) in [
        (1, "", 0, none()),
        (1, "", 63, none()),
        (2, "write-back 0/8; fence", 0, none()),
        (2, "store 0/8; fence", 8, none()),
        (2, "store 0/8; fence", 7, open(0, [1, 0], [2, 0])),
        (
            2,
            "fence; store 0/8 site 65535; write-back 63/1 site 0",
            0,
            open(1, [2, 3], [65_535, 0]),
        ),
        // A write-back of the other line, and one before the store.
        (
            2,
            "write-back 0/8; store 0/8; write-back 64/8; fence",
            0,
            open(0, [2, 0], [3, 0]),
        ),
        (
            2,
            "store 127/1; write-back 64/1; fence",
            127,
            closed([0, 1], [1, 2, 3], [2, 3, 4]),
        ),
        // The first write-back and the first fence.
        (
            1,
            "store 0/8; write-back 0/8; write-back 0/8; fence; fence",
            0,
            closed([0, 1], [1, 2, 4], [2, 3, 5]),
        ),
        // Stored again after it was closed, and closed again.
        (
            1,
            "store 0/8; write-back 0/8; fence; store 0/1",
            0,
            open(1, [4, 0], [5, 0]),
        ),
        (
            1,
            "store 0/8; write-back 0/8; fence; store 0/1; write-back 0/8; fence",
            0,
            closed([1, 2], [4, 5, 6], [5, 6, 7]),
        ),
        (
            1,
            "store 0/8; write-back 0/8; fence; store 0/1; write-back 0/8; fence",
            1,
            closed([0, 1], [1, 2, 3], [2, 3, 4]),
        ),
        // Stored again between the write-back and the fence.
        (
            1,
            "store 0/8; write-back 0/8; store 0/8; fence",
            0,
            open(0, [3, 0], [4, 0]),
        ),
        // No byte is stored or written back.
        (
            1,
            "store 0/8; write-back 0/0; store 0/0; fence; write-back 0/1; store 4/0; fence",
            4,
            closed([0, 2], [1, 5, 7], [2, 6, 8]),
        ),
        // The request's whole run.
        (2, WHOLE, 0, closed([0, 1], [1, 3, 4], [10, 12, 13])),
        (2, WHOLE, 71, closed([0, 2], [2, 7, 8], [11, 16, 17])),
        (2, WHOLE, 72, none()),
        (2, WHOLE, 128, refused(9, 0)),
    ] {
        answers(&trace_of(lines, events), byte, expected);
    }
}

/// With the request's sites.
const WHOLE: &str =
    "store 0/8 site 10; store 64/8 site 11; write-back 0/8 site 12; fence site 13; \
    ordered 0/8 before 64/8 site 14; persisted 64/8 site 15; write-back 0/128 site 16; \
    fence site 17; persisted 0/128 site 18";

#[test]
fn text_of_intervals() {
    let text = |byte| interval(&trace_of(2, WHOLE), byte).map(|answer| answer.text(byte));
    for (byte, expected) in [
        (
            64,
            "byte 64 closed 0 2 store 2 write-back 7 fence 8\n\
             event 2 site 11\nevent 7 site 16\nevent 8 site 17\n",
        ),
        (8, "byte 8 none\n"),
    ] {
        assert_eq!(text(byte), Ok(expected.to_string()));
    }
    for (events, expected) in [
        (
            "store 0/1 site 0",
            "byte 0 open 0 store 1 write-back 0\nevent 1 site 0\n",
        ),
        (
            "fence; store 0/1; write-back 0/1 site 0",
            "byte 0 open 1 store 2 write-back 3\nevent 2 site 3\nevent 3 site 0\n",
        ),
    ] {
        let answer = interval(&trace_of(1, events), 0).expect("the trace is accepted");
        assert_eq!(answer.text(0), expected);
    }
}

/// Where the judge refuses a trace there is no interval, also of a byte past the window. 14 is never
/// given.
#[test]
fn refusals() {
    let event = |event| encode(&Record { event, site: 5 });
    let (a, far) = (Range::new(0, 8), Range::new(60, 8));
    let done = [
        event(Event::Store(a)),
        event(Event::WriteBack(a)),
        event(Event::Fence),
    ];
    let behind = |records: &[[u8; RECORD]]| assemble(1, &[1, 2, 3], &[&done[..], records].concat());
    let all = |trace: &[u8], expected: Answer| {
        for byte in [0, 8, 63, 64, 4_095, 4_096, 65_535] {
            answers(trace, byte, expected);
        }
    };
    let trailer = |mark, count, lines, zero| {
        let records = done.concat();
        [&records[..], &raw_trailer(mark, 0, count, lines, zero)].concat()
    };
    for trace in [behind(&[]), trailer(MARK, 3, 1, 0)] {
        answers(&trace, 7, closed([0, 1], [1, 2, 3], [5; 3]));
        answers(&trace, 63, none());
        answers(&trace, 64, refused(9, 0));
        answers(&trace, 65_536, refused(9, 0));
    }
    all(&[], refused(1, 0));
    all(&trailer(MARK, 3, 1, 0)[37..], refused(1, 0));
    all(&vec![0; MAX_TRACE + 1], refused(2, 0));
    all(&trailer(*b"PTRB", 3, 1, 0), refused(3, 0));
    all(&trailer(MARK, 3, 0, 0), refused(4, 0));
    all(&trailer(MARK, 3, 65, 0), refused(4, 0));
    all(&trailer(MARK, 3, 1, 1), refused(4, 0));
    all(&trailer(MARK, 2, 1, 0), refused(5, 0));
    let begin = event(Event::Begin);
    for (record, number) in [
        (raw_record(9, 0, NOTHING, NOTHING, 0), 6),
        (raw_record(Event::FENCE, 1, NOTHING, NOTHING, 0), 7),
        (raw_record(Event::FENCE, 0, a, NOTHING, 0), 7),
        (event(Event::Persisted(Range::new(65, 0))), 9),
        (event(Event::Store(far)), 9),
        (event(Event::Ordered(a, far)), 9),
        (event(Event::Ordered(a, a)), 18),
        (event(Event::Ordered(a, Range::new(7, 1))), 18),
        (event(Event::End), 11),
        (event(Event::Log(a)), 11),
    ] {
        all(&behind(&[record]), refused(number, 4));
        all(&assemble(1, &[], &[record, begin]), refused(number, 1));
    }
    all(&behind(&[begin; 9]), refused(12, 12));
    all(&behind(&[begin; 8]), refused(13, 0));
    all(&assemble(1, &[], &[begin]), refused(13, 0));
    // The findings area of such a trace is as long as the trace at most.
    let longest = assemble(64, &[], &[done[2]; 5_460]);
    assert_eq!(interval(&longest, 4_095), none());
    assert_eq!(interval(&longest, 4_096), refused(9, 0));
}

/// What is compared of random traces.
#[derive(Debug, Default)]
struct Compared {
    /// Of the bytes of accepted traces: none, open, open and written back, closed.
    intervals: [usize; 4],
    refused: [usize; 19],
    by_images: usize,
}

impl Compared {
    fn add(&mut self, answer: Answer) {
        let of_trace = match answer {
            Ok(of_trace) => of_trace,
            Err(refusal) => return self.refused[usize::from(refusal.number)] += 1,
        };
        let at = match of_trace.interval {
            Interval::None => 0,
            Interval::Open { write_back: 0, .. } => 1,
            Interval::Open { .. } => 2,
            Interval::Closed { .. } => 3,
        };
        self.intervals[at] += 1;
    }
}

/// The interval of a byte of a trace is that of the run that took its events singly, with the sites
/// of the records named; and the trace is refused where the judge refuses it.
#[test]
fn random_traces() {
    let mut random = Random::new(42);
    let mut compared = Compared::default();
    for _ in 0..10_000 {
        let shape = match random.below(4) {
            0 => random::any_shape(&mut random),
            _ => random::small_shape(&mut random),
        };
        let trace = match random.below(3) {
            0 => random::damaged(&mut random, &shape),
            _ => random::valid(&mut random, &shape),
        };
        let by_images = images::small_enough(&trace);
        let judged = judge(&trace, MAX_TRACE).refusal();
        let run = judged.is_none().then(|| singly_given(&trace));
        for byte in bytes(&mut random, &trace) {
            let answer = interval(&trace, byte);
            match (judged, &run) {
                (Some(refusal), _) => assert_eq!(answer, Err(refusal), "{trace:?}"),
                (None, Some(run)) => assert_eq!(answer, of_run(run, &trace, byte), "{trace:?}"),
                (None, None) => unreachable!("an accepted trace has a run"),
            }
            if by_images && random.chance(1, 4) {
                assert_eq!(interval_by_images(&trace, byte), answer, "{trace:?}");
                compared.by_images += 1;
            }
            compared.add(answer);
        }
    }
    println!("{compared:?}");
    assert!(compared.by_images > 20_000);
    assert!(compared.intervals.iter().all(|&count| count > 1_000));
    for number in [1, 3, 4, 5, 6, 7, 9, 11, 12, 13, 18] {
        let count = compared.refused[number];
        assert!(count > 10, "{number}: {count}");
    }
    assert_eq!(compared.refused[8], 0);
}

/// The bytes at the edges of the trace's stores, some others, and one past the window.
fn bytes(random: &mut Random, trace: &[u8]) -> Vec<usize> {
    let mut bytes = vec![0, random.below(4_096), random.below(65_536)];
    let Ok(body) = trace::open(trace) else {
        return bytes;
    };
    let window = 64 * usize::from(body.lines);
    bytes.extend([window - 1, window, random.below(window)]);
    let stores = body
        .record_bytes()
        .filter(|record| record[0] == Event::STORE);
    for record in stores.take(4) {
        let event = trace::read(record).map(|record| record.event);
        if let Ok(Event::Store(a)) = event {
            bytes.extend([usize::from(a.address), a.end().saturating_sub(1)]);
        }
    }
    bytes
}

/// The run that took the events of an accepted trace one by one.
fn singly_given(trace: &[u8]) -> Run {
    let body = trace::open(trace).expect("the trace is accepted");
    let (mut run, _) = singly::fresh::<Run>(body.lines);
    for bytes in body.record_bytes() {
        let record = trace::read(bytes).expect("the trace is accepted");
        singly::give(&mut run, &record).expect("the trace is accepted");
    }
    run
}

/// The answer of the run, with the sites of an accepted trace.
fn of_run(run: &Run, trace: &[u8], byte: usize) -> Answer {
    let interval = singly::ask(run, byte)?;
    assert_eq!(interval.epochs(), run.epochs(byte));
    let body = trace::open(trace).expect("the trace is accepted");
    let site = |event: usize| {
        let record = event
            .checked_sub(1)
            .and_then(|at| body.record_bytes().nth(at));
        record.map_or(0, |record| u16::from_le_bytes([record[10], record[11]]))
    };
    Ok(OfTrace {
        interval,
        sites: interval.events().map(site),
    })
}
