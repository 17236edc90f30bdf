//! Traces to time checkers with. Each is accepted, and each stays as it is: times are compared between versions. Those of
//! `mixes` changed once, for 18.

use crate::mixes::{random_events, EVEN, PLAIN};
use reference::event::{self, MAX_LINES};
use reference::random::Random;
use reference::trace::{self, MAX_TRACE, RECORD, TRAILER};
use reference::{Event, Range, Record};

const LINE: u16 = event::LINE as u16;
const WINDOW: u16 = MAX_LINES * LINE;
/// The most records that a trace can have.
pub const MOST: usize = (MAX_TRACE - TRAILER) / RECORD;

/// A trace and what it stands for.
pub struct Workload {
    pub name: &'static str,
    pub note: &'static str,
    pub trace: Vec<u8>,
}

impl Workload {
    fn new(name: &'static str, note: &'static str, events: Vec<Event>) -> Workload {
        let trace = trace_of(events);
        Workload { name, note, trace }
    }
}

/// Every workload, in the order of the table.
pub fn all() -> Vec<Workload> {
    vec![
        Workload::new(
            "small stores",
            "stores of 8 bytes all over the window, their write-backs, a fence in eight records",
            small_stores(500),
        ),
        Workload::new(
            "undo-log transactions",
            "four entries a transaction: logged, stored, written back, fenced",
            transactions(300),
        ),
        Workload::new(
            "large persisted",
            "persisted over 4,096 bytes, all durable",
            large_persisted(WINDOW, 400),
        ),
        Workload::new(
            "large ordered",
            "three times ordered over 2,048 bytes before 2,048, which holds: 4,194,304 pairs each",
            large_ordered(WINDOW / 2, 3),
        ),
        Workload::new(
            "many fences",
            "64 lines stored to and written back before each fence",
            durable_rounds(WINDOW, 1_500),
        ),
        Workload::new(
            "random mixes",
            "all kinds of event, ranges of up to 128 bytes",
            random_mixes(8),
        ),
        Workload::new(
            "largest trace",
            "65,536 bytes: 5,460 events of all kinds, ranges of up to 16 bytes",
            largest(),
        ),
    ]
}

/// The trace of these events in a window of 64 lines; an event's site is its number.
pub fn trace_of(events: Vec<Event>) -> Vec<u8> {
    let sites = 1..;
    let records: Vec<Record> = events
        .into_iter()
        .zip(sites)
        .map(|(event, site)| Record { event, site })
        .collect();
    trace::write(MAX_LINES, &[], &records)
}

/// Groups of eight records. Each fourth group ends in a persisted, which holds; the others in a store
/// that is not written back.
fn small_stores(groups: usize) -> Vec<Event> {
    let mut random = Random::new(31);
    let mut range = || Range::new(random.below(usize::from(WINDOW) - 7) as u16, 8);
    let mut events = Vec::new();
    for group in 0..groups {
        let stored = [range(), range(), range()];
        events.extend(stored.map(Event::Store));
        events.extend(stored.map(Event::WriteBack));
        events.push(Event::Fence);
        events.push(match group % 4 {
            3 => Event::Persisted(stored[0]),
            _ => Event::Store(range()),
        });
    }
    events
}

/// Transactions whose ends hold: four objects of 24 bytes, in lines of their own.
fn transactions(count: usize) -> Vec<Event> {
    let mut random = Random::new(32);
    let mut events = Vec::new();
    for _ in 0..count {
        let first = random.below(16) as u16;
        let objects = [0, 16, 32, 48].map(|line| {
            let place = random.below(6) as u16 * 8;
            Range::new((first + line) * LINE + place, 24)
        });
        events.push(Event::Begin);
        events.extend(
            objects
                .iter()
                .flat_map(|&o| [Event::Log(o), Event::Store(o)]),
        );
        events.extend(objects.map(Event::WriteBack));
        events.extend([Event::Fence, Event::End]);
    }
    events
}

fn durable(range: Range) -> [Event; 3] {
    [Event::Store(range), Event::WriteBack(range), Event::Fence]
}

/// Persisted over so many bytes, which holds, so many times.
pub fn large_persisted(bytes: u16, count: usize) -> Vec<Event> {
    let range = Range::new(0, bytes);
    let mut events = durable(range).to_vec();
    events.extend(vec![Event::Persisted(range); count]);
    events
}

/// Ordered over so many bytes on each side, which holds, so many times.
pub fn large_ordered(bytes: u16, count: usize) -> Vec<Event> {
    let (a, b) = (Range::new(0, bytes), Range::new(WINDOW / 2, bytes));
    let mut events = durable(a).to_vec();
    events.push(Event::Store(b));
    events.extend(vec![Event::Ordered(a, b); count]);
    events
}

/// So many bytes stored to, written back and fenced, so many times.
pub fn durable_rounds(bytes: u16, count: usize) -> Vec<Event> {
    let rounds = std::iter::repeat_n(durable(Range::new(0, bytes)), count);
    rounds.flatten().collect()
}

fn random_mixes(count: usize) -> Vec<Event> {
    let mut random = Random::new(33);
    (0..count)
        .flat_map(|_| random_events(&mut random, 500, 128, EVEN))
        .collect()
}

fn largest() -> Vec<Event> {
    let mut random = Random::new(34);
    let mut events = random_events(&mut random, MOST - 60, 16, EVEN);
    let missing = MOST - events.len();
    events.extend(random_events(&mut random, missing, 16, PLAIN));
    events
}

#[cfg(test)]
pub mod tests {
    use super::{all, MAX_TRACE, MOST};
    use reference::{Kind, Report};

    /// FNV-1a of 64 bits.
    pub fn hash(bytes: &[u8]) -> u64 {
        bytes.iter().fold(0xcbf2_9ce4_8422_2325, |hash, &byte| {
            (hash ^ u64::from(byte)).wrapping_mul(0x0100_0000_01b3)
        })
    }

    fn report(name: &str) -> Report {
        let workload = all().into_iter().find(|workload| workload.name == name);
        let trace = workload.expect("a workload of that name").trace;
        let outcome = reference::judge(&trace, trace.len());
        outcome.report().expect("an accepted trace").clone()
    }

    fn count(report: &Report, kind: Kind) -> usize {
        let findings = report.findings.iter();
        findings.filter(|finding| finding.kind == kind).count()
    }

    /// Times of this version are compared with those of others. The last two changed once, for 18.
    #[test]
    fn the_traces_are_those_of_every_version() {
        let hashes: Vec<u64> = all().iter().map(|workload| hash(&workload.trace)).collect();
        let expected = [
            0xc02f_75b0_cab0_eb8f,
            0x5808_c6a8_6c3c_d8fc,
            0x929f_843f_b58f_409c,
            0x6cfb_45d6_b1e0_f66a,
            0x4477_255e_4543_3954,
            0xca33_bf82_eede_b6cf,
            0x5a44_1e79_ff79_b136,
        ];
        assert_eq!(hashes, expected, "{hashes:#x?}");
    }

    #[test]
    fn every_workload_is_accepted() {
        for workload in all() {
            let outcome = reference::judge(&workload.trace, workload.trace.len());
            assert!(outcome.report().is_some(), "{}", workload.name);
        }
    }

    #[test]
    fn the_assertions_of_small_stores_hold() {
        let report = report("small stores");
        assert_eq!((report.totals.events, report.totals.fences), (4_000, 500));
        assert_eq!(count(&report, Kind::Holds), 125);
        assert_eq!(count(&report, Kind::Lost), 0);
    }

    #[test]
    fn transactions_are_right() {
        let report = report("undo-log transactions");
        assert_eq!((report.totals.events, report.totals.found), (4_500, 300));
        assert_eq!(count(&report, Kind::Holds), 300);
    }

    #[test]
    fn large_assertions_hold() {
        for (name, assertions) in [("large persisted", 400), ("large ordered", 3)] {
            let report = report(name);
            assert_eq!(report.totals.found, assertions);
            assert_eq!(count(&report, Kind::Holds), assertions);
        }
    }

    #[test]
    fn fences_find_nothing() {
        let report = report("many fences");
        assert_eq!((report.totals.fences, report.totals.found), (1_500, 0));
    }

    #[test]
    fn mixes_have_findings_of_every_kind() {
        for name in ["random mixes", "largest trace"] {
            let report = report(name);
            for kind in Kind::ALL {
                assert!(count(&report, kind) > 0, "{name}: {kind:?}");
            }
        }
    }

    #[test]
    fn the_largest_trace_is_as_long_as_can_be() {
        let largest = all().pop().expect("workloads");
        assert_eq!(
            (largest.name, largest.trace.len()),
            ("largest trace", MAX_TRACE)
        );
        assert_eq!(report(largest.name).totals.events, MOST);
    }
}
