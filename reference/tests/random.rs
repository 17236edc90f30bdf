//! The two ways compared on seeded random traces, longer than the exhaustive ones.
//!
//! Most have windows of 1 to 4 lines, ranges of at most 16 bytes, 6 to 30 events and the ends
//! behind them; some have any window, any range and up to 39 events; and some have stores of up to
//! 24 bytes with orders between their parts. Most have ranges of no bytes among the others, and some
//! have many of them. A trace with more to look at in its images than `images::SMALL_EFFORT` is
//! passed over; the tests count those compared. Each accepted one is also compared with the trace
//! that lacks its events with a range of no bytes.
//!
//! Persist intervals, with their epochs and events, are compared for every byte of the window after
//! every event, and mean exposures after every event.

use reference::direct::Run;
use reference::images::History;
use reference::no_bytes::{self, Beside};
use reference::orders;
use reference::random::{self, Mix, Random, Shape};
use reference::{images, judge, judge_by_images, script, trace};
use reference::{Event, Interval, Kind, Outcome, Record, Way};

/// Compares the two ways on `count` traces, and gives the outcomes of those small enough.
fn compare(seed: u64, count: usize, make: fn(&mut Random) -> Vec<u8>) -> Vec<Outcome> {
    let mut random = Random::new(seed);
    let mut outcomes = Vec::new();
    let mut no_bytes = no_bytes::Counts::default();
    let mut orders = orders::Counts::default();
    for _ in 0..count {
        let trace = make(&mut random);
        let area = if random.chance(1, 50) { 24 } else { 65_536 };
        if !images::small_enough(&trace) {
            continue;
        }
        let direct = judge(&trace, area);
        let enumerated = judge_by_images(&trace, area);
        let text = || script::text_of(&trace).unwrap_or_else(|| format!("{trace:?}"));
        assert_eq!(direct, enumerated, "seed {seed}\n{}", text());
        if direct.report().is_some() {
            no_bytes.join(&compare_without(&trace));
            orders::count(&mut orders, events_of(&trace));
        }
        outcomes.push(direct);
    }
    let compared = outcomes.len();
    println!("seed {seed}: {compared} of {count} compared; no bytes: {no_bytes}");
    assert!(no_bytes.least() > 0, "seed {seed}: {no_bytes}");
    println!(
        "seed {seed}: orders accepted: {orders:?} {:?}",
        orders::SORTS
    );
    assert_eq!(orders[orders::SHARE], 0);
    let others = [orders::TOUCH, orders::NO_BYTE_INSIDE, orders::APART];
    assert!(others.iter().all(|&sort| orders[sort] > 500), "{orders:?}");
    outcomes
}

/// The events of an accepted trace.
fn events_of(trace: &[u8]) -> Vec<Event> {
    let body = trace::open(trace).expect("the trace is accepted");
    let read = |bytes| trace::read(bytes).expect("the trace is accepted").event;
    body.record_bytes().map(read).collect()
}

/// Compares an accepted trace with the one that has none of its events with a range of no bytes, and
/// counts these.
fn compare_without(trace: &[u8]) -> no_bytes::Counts {
    let body = trace::open(trace).expect("the trace is accepted");
    let mut beside = Beside::<Run>::fresh(body.lines);
    for bytes in body.record_bytes() {
        let record = trace::read(bytes).expect("the trace is accepted");
        beside.give(&record).expect("the trace is accepted");
    }
    beside.compare();
    let counts = no_bytes::Counts::of(events_of(trace));
    assert_eq!(counts.sum(), beside.taken_out());
    counts
}

fn count_of(outcomes: &[Outcome], kind: Kind) -> usize {
    let reports = outcomes.iter().filter_map(Outcome::report);
    let findings = reports.flat_map(|report| &report.findings);
    findings.filter(|finding| finding.kind == kind).count()
}

/// Pairs out of order that one store set on one line: the moment is the kept byte's last store.
fn torn(outcomes: &[Outcome]) -> usize {
    let reports = outcomes.iter().filter_map(Outcome::report);
    let findings = reports.flat_map(|report| &report.findings);
    let torn = findings.filter(|finding| {
        let one_line = finding.lost / 64 == finding.kept / 64;
        finding.kind == Kind::OutOfOrder && finding.moment == finding.store && one_line
    });
    torn.count()
}

fn refusals(outcomes: &[Outcome], number: u8) -> usize {
    let refused = outcomes.iter().filter_map(Outcome::refusal);
    refused.filter(|refusal| refusal.number == number).count()
}

fn valid_small(random: &mut Random) -> Vec<u8> {
    let shape = random::small_shape(random);
    random::valid(random, &shape)
}

fn damaged_small(random: &mut Random) -> Vec<u8> {
    let shape = random::small_shape(random);
    random::damaged(random, &shape)
}

fn assert_valid(outcomes: &[Outcome], count: usize) {
    assert!(outcomes.len() > count * 9 / 10, "{}", outcomes.len());
    let too_short = outcomes.iter().filter_map(Outcome::refusal);
    assert!(too_short.into_iter().all(|refusal| refusal.number == 14));
    for kind in Kind::ALL {
        assert!(count_of(outcomes, kind) > 100, "few {kind:?}");
    }
}

#[test]
fn valid_traces() {
    assert_valid(&compare(1, 20_000, valid_small), 20_000);
}

#[test]
fn more_valid_traces() {
    assert_valid(&compare(2, 20_000, valid_small), 20_000);
}

#[test]
fn damaged_traces() {
    let outcomes = compare(3, 30_000, damaged_small);
    assert!(outcomes.len() > 27_000, "{}", outcomes.len());
    for number in [1, 3, 4, 5, 14, 6, 7, 9, 11, 12, 13, 18] {
        assert!(refusals(&outcomes, number) > 0, "never refused by {number}");
    }
    let shared = refusals(&outcomes, 18);
    println!("refused by 18: {shared}");
    assert!(shared > 1_000, "{shared}");
    assert_eq!(refusals(&outcomes, 8), 0);
    let accepted = outcomes.iter().filter_map(Outcome::report).count();
    assert!(accepted > 1_000, "{accepted}");
}

/// Stores of up to 24 bytes, and orders between two parts of one store.
#[test]
fn torn_stores() {
    let outcomes = compare(8, 20_000, |random| {
        let shape = random::torn_shape(random);
        random::valid(random, &shape)
    });
    assert!(outcomes.len() > 19_000, "{}", outcomes.len());
    for kind in [Kind::Holds, Kind::Lost, Kind::OutOfOrder] {
        assert!(count_of(&outcomes, kind) > 1_000, "few {kind:?}");
    }
    let torn = torn(&outcomes);
    println!("{torn} pairs of one store on one line");
    assert!(torn > 10_000, "{torn}");
}

/// Windows of up to 64 lines and ranges of up to 4,096 bytes.
#[test]
fn any_window() {
    let outcomes = compare(4, 6_500, |random| {
        let shape = random::any_shape(random);
        random::valid(random, &shape)
    });
    assert!(outcomes.len() > 5_423, "{}", outcomes.len());
    for kind in Kind::ALL {
        assert!(count_of(&outcomes, kind) > 100, "few {kind:?}");
    }
}

/// No transactions and no assertions: no images are enumerated.
const STORES: Mix = Mix {
    store: 4,
    write_back: 3,
    fence: 2,
    transaction: 0,
    persisted: 0,
    ordered: 0,
    within: 0,
};

/// How many intervals were compared, how many of them were closed, and how many were open with their
/// line written back.
#[derive(Clone, Copy, Debug, Default)]
struct Intervals {
    lists: usize,
    compared: usize,
    closed: usize,
    waiting: usize,
    /// Exposures that are not refused, and those of them with a remainder.
    exposures: usize,
    remainders: usize,
    /// Events with a range of no bytes.
    no_bytes: usize,
}

impl Intervals {
    /// Compares the intervals of every byte, epochs and events, and the exposures, after each event of
    /// a list.
    fn compare(&mut self, lines: u16, records: &[Record]) {
        let (mut direct, mut history) = (Run::fresh(lines), History::fresh(lines));
        for record in records {
            assert_eq!(direct.give(record), history.give(record), "{records:?}");
            for byte in 0..direct.window() {
                let interval = direct.interval(byte);
                assert_eq!(interval, history.interval(byte), "{byte}: {records:?}");
                let epochs = [direct.epochs(byte), history.epochs(byte)];
                assert_eq!(epochs, [interval.epochs(); 2], "{byte}: {records:?}");
                self.compared += 1;
                self.closed += usize::from(matches!(interval, Interval::Closed { .. }));
                let [_, write_back, fence] = interval.events();
                self.waiting += usize::from(write_back > 0 && fence == 0);
            }
            let exposure = direct.exposure();
            assert_eq!(exposure, history.exposure(), "{records:?}");
            self.exposures += usize::from(exposure.is_ok());
            let remainder = exposure.map_or(0, |exposure| exposure.remainder);
            self.remainders += usize::from(remainder > 0);
        }
        self.lists += 1;
        let events = records.iter().map(|record| record.event);
        self.no_bytes += no_bytes::Counts::of(events).sum();
    }
}

/// Compares the intervals of `count` lists, passing over those with too many images.
fn compare_intervals(seed: u64, count: usize, make: fn(&mut Random) -> Shape) -> Intervals {
    let mut random = Random::new(seed);
    let mut intervals = Intervals::default();
    for _ in 0..count {
        let shape = make(&mut random);
        let records = random::events(&mut random, &shape);
        if images::small_enough_events(shape.lines, &records) {
            intervals.compare(shape.lines, &records);
        }
    }
    println!("seed {seed}: {count} lists, {intervals:?}");
    intervals
}

#[test]
fn intervals() {
    let intervals = compare_intervals(5, 4_000, random::small_shape);
    assert!(intervals.lists > 3_600);
    assert!(intervals.no_bytes > 1_000);
    assert!(intervals.compared > 10_000_000 && intervals.closed > 50_000);
    assert!(intervals.waiting > 50_000);
    assert!(intervals.exposures > 10_000 && intervals.remainders > 1_000);
}

#[test]
fn intervals_of_long_lists() {
    let intervals = compare_intervals(6, 400, |random| Shape {
        lines: 1 + random.below(3) as u16,
        events: 120,
        mix: STORES,
        longest: random.pick(&[4, 16, 70]),
        ranges: random.below(12),
        no_bytes: random.pick(&[0, 5, 30]),
    });
    assert_eq!(intervals.lists, 400);
    assert!(intervals.no_bytes > 1_000);
    assert!(intervals.compared > 5_000_000 && intervals.closed > 500_000);
    assert!(intervals.waiting > 200_000);
    assert!(intervals.exposures > 10_000 && intervals.remainders > 10_000);
}

#[test]
fn intervals_of_any_window() {
    let intervals = compare_intervals(7, 500, |random| Shape {
        mix: STORES,
        ..random::any_shape(random)
    });
    assert_eq!(intervals.lists, 500);
    assert!(intervals.compared > 5_000_000 && intervals.closed > 100_000);
    assert!(intervals.waiting > 200_000);
}

/// Many ranges of no bytes, in shapes of every sort.
#[test]
fn no_bytes() {
    let outcomes = compare(9, 10_000, |random| {
        let shape = match random.below(4) {
            0 => random::torn_shape(random),
            1 => random::any_shape(random),
            _ => random::small_shape(random),
        };
        let shape = Shape {
            no_bytes: random.pick(&[20, 50, 90]),
            ..shape
        };
        random::valid(random, &shape)
    });
    assert!(outcomes.len() > 9_500, "{}", outcomes.len());
    for kind in Kind::ALL {
        assert!(count_of(&outcomes, kind) > 100, "few {kind:?}");
    }
}

/// The same seed gives the same traces.
#[test]
fn seeds_repeat() {
    let make = |seed| {
        let mut random = Random::new(seed);
        let traces = (0..50).map(|_| damaged_small(&mut random));
        traces.collect::<Vec<_>>()
    };
    assert_eq!(make(7), make(7));
    assert_ne!(make(7), make(8));
}
