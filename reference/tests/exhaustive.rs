//! The two ways compared on all traces up to a length over an alphabet of events: the outcomes, the
//! persist intervals, and the mean exposures.

use reference::direct::Run;
use reference::images::History;
use reference::no_bytes::{self, Beside};
use reference::orders;
use reference::{findings_with, judge, judge_by_images, script, trace, Event, Exposure, Finding};
use reference::{Epochs, Interval, Kind, Outcome, Range, Record, Way};
use std::ops::RangeInclusive;
use std::sync::Mutex;

/// Tests that use threads run one at a time.
static ONE_AT_A_TIME: Mutex<()> = Mutex::new(());
const THREADS: usize = 2;
const LINES: u16 = 2;

const fn r(address: u16, length: u16) -> Range {
    Range::new(address, length)
}

/// Stores, write-backs and assertions on both lines and across their border, and transactions.
const EVERYTHING: [Event; 16] = [
    Event::Store(r(60, 8)),
    Event::Store(r(56, 6)),
    Event::Store(r(66, 4)),
    Event::WriteBack(r(56, 2)),
    Event::WriteBack(r(60, 8)),
    Event::WriteBack(r(66, 2)),
    Event::Fence,
    Event::Persisted(r(56, 16)),
    Event::Persisted(r(58, 4)),
    Event::Ordered(r(56, 8), r(64, 6)),
    Event::Ordered(r(58, 8), r(66, 4)),
    Event::Ordered(r(60, 4), r(56, 4)),
    Event::Ordered(r(64, 6), r(58, 4)),
    Event::Begin,
    Event::Log(r(58, 8)),
    Event::End,
];

/// Stores to three places of one line and one of the other, for longer histories.
const ASSERTIONS: [Event; 9] = [
    Event::Store(r(62, 4)),
    Event::Store(r(62, 2)),
    Event::Store(r(65, 2)),
    Event::WriteBack(r(63, 1)),
    Event::WriteBack(r(64, 1)),
    Event::Fence,
    Event::Persisted(r(62, 5)),
    Event::Ordered(r(62, 2), r(64, 3)),
    Event::Ordered(r(64, 3), r(62, 2)),
];

/// Nested transactions and logs.
const TRANSACTIONS: [Event; 8] = [
    Event::Begin,
    Event::End,
    Event::Log(r(62, 3)),
    Event::Log(r(60, 4)),
    Event::Store(r(62, 4)),
    Event::Store(r(60, 2)),
    Event::WriteBack(r(60, 8)),
    Event::Fence,
];

/// Stores of two and three words, aligned and not, on one line and across two, and one inside a
/// word; orders between their words, inside one and across the lines.
const TORN: [Event; 13] = [
    Event::Store(r(40, 16)),
    Event::Store(r(44, 16)),
    Event::Store(r(52, 24)),
    Event::Store(r(50, 3)),
    Event::WriteBack(r(40, 1)),
    Event::WriteBack(r(64, 1)),
    Event::Fence,
    Event::Persisted(r(40, 36)),
    Event::Ordered(r(40, 8), r(48, 8)),
    Event::Ordered(r(48, 8), r(42, 6)),
    Event::Ordered(r(56, 20), r(48, 8)),
    Event::Ordered(r(48, 4), r(52, 4)),
    Event::Ordered(r(44, 20), r(64, 12)),
];

/// Three words whole, three in part, and two across the lines, for longer histories.
const WORDS: [Event; 8] = [
    Event::Store(r(64, 24)),
    Event::Store(r(68, 10)),
    Event::Store(r(60, 16)),
    Event::WriteBack(r(60, 8)),
    Event::Fence,
    Event::Ordered(r(60, 16), r(76, 12)),
    Event::Ordered(r(64, 8), r(72, 16)),
    Event::Ordered(r(80, 8), r(64, 16)),
];

/// The events that persist intervals depend on.
const INTERVALS: [Event; 7] = [
    Event::Store(r(60, 8)),
    Event::Store(r(62, 2)),
    Event::Store(r(64, 1)),
    Event::WriteBack(r(60, 8)),
    Event::WriteBack(r(63, 1)),
    Event::WriteBack(r(64, 1)),
    Event::Fence,
];

/// Stores of several exposures on two lines, for longer histories.
const EXPOSURES: [Event; 5] = [
    Event::Store(r(61, 5)),
    Event::Store(r(62, 1)),
    Event::WriteBack(r(61, 5)),
    Event::WriteBack(r(64, 1)),
    Event::Fence,
];

/// Ranges of no bytes in every kind of event, among others: at a line's edge, inside a stored range
/// and at the window's size.
const NO_BYTES: [Event; 16] = [
    Event::Store(r(60, 8)),
    Event::Store(r(62, 0)),
    Event::Store(r(128, 0)),
    Event::WriteBack(r(60, 8)),
    Event::WriteBack(r(63, 0)),
    Event::Fence,
    Event::Begin,
    Event::Log(r(60, 8)),
    Event::Log(r(64, 0)),
    Event::End,
    Event::Persisted(r(56, 16)),
    Event::Persisted(r(62, 0)),
    Event::Ordered(r(60, 4), r(64, 4)),
    Event::Ordered(r(62, 0), r(60, 8)),
    Event::Ordered(r(60, 8), r(64, 0)),
    Event::Ordered(r(64, 0), r(128, 0)),
];

/// Transactions with logs and stores of no bytes.
const EMPTY_TRANSACTIONS: [Event; 8] = [
    Event::Begin,
    Event::End,
    Event::Log(r(62, 3)),
    Event::Log(r(63, 0)),
    Event::Store(r(62, 4)),
    Event::Store(r(63, 0)),
    Event::WriteBack(r(60, 8)),
    Event::Fence,
];

/// Stores and write-backs of no bytes beside those of several words.
const EMPTY_WORDS: [Event; 9] = [
    Event::Store(r(60, 16)),
    Event::Store(r(64, 0)),
    Event::Store(r(64, 16)),
    Event::WriteBack(r(60, 8)),
    Event::WriteBack(r(64, 0)),
    Event::Fence,
    Event::Ordered(r(60, 8), r(68, 12)),
    Event::Ordered(r(72, 0), r(60, 20)),
    Event::Ordered(r(64, 8), r(72, 8)),
];

/// The events that persist intervals depend on, some of them of no bytes.
const EMPTY_INTERVALS: [Event; 8] = [
    Event::Store(r(60, 8)),
    Event::Store(r(62, 0)),
    Event::Store(r(64, 0)),
    Event::Store(r(64, 1)),
    Event::WriteBack(r(60, 8)),
    Event::WriteBack(r(63, 0)),
    Event::WriteBack(r(64, 1)),
    Event::Fence,
];

/// Orders between ranges that share a byte, that touch, and of which one has no byte inside the other.
const SHARED: [Event; 13] = [
    Event::Store(r(60, 8)),
    Event::Store(r(64, 4)),
    Event::WriteBack(r(60, 8)),
    Event::Fence,
    Event::Begin,
    Event::End,
    Event::Ordered(r(60, 4), r(64, 4)),
    Event::Ordered(r(64, 4), r(60, 4)),
    Event::Ordered(r(60, 5), r(64, 4)),
    Event::Ordered(r(63, 1), r(60, 4)),
    Event::Ordered(r(60, 8), r(60, 8)),
    Event::Ordered(r(62, 0), r(60, 8)),
    Event::Ordered(r(60, 8), r(64, 0)),
];

/// How often each kind of finding, each refusal, each kind of interval and each sort of exposure
/// came up.
#[derive(Clone, Debug, Default)]
struct Tally {
    traces: usize,
    kinds: [usize; 9],
    refused: [usize; 19],
    /// None, open, open and written back, closed.
    intervals: [usize; 4],
    /// Exposures that are refused, without a remainder, and with one.
    exposures: [usize; 3],
    /// Pairs out of order that one store set on one line.
    torn: usize,
    /// Events with a range of no bytes in accepted lists.
    no_bytes: no_bytes::Counts,
    /// Orders given singly that were accepted, and that 18 refused.
    accepted: orders::Counts,
    shared: orders::Counts,
}

impl Tally {
    fn add(&mut self, outcome: &Outcome) {
        self.traces += 1;
        match outcome {
            Outcome::Accepted(report) => {
                for finding in &report.findings {
                    self.kinds[usize::from(finding.kind.number())] += 1;
                    self.torn += usize::from(is_torn(finding));
                }
            }
            Outcome::Refused(refusal) => self.refused[usize::from(refusal.number)] += 1,
        }
    }

    fn add_interval(&mut self, interval: Interval) {
        let at = match interval {
            Interval::None => 0,
            Interval::Open { write_back: 0, .. } => 1,
            Interval::Open { .. } => 2,
            Interval::Closed { .. } => 3,
        };
        self.intervals[at] += 1;
    }

    fn add_exposure(&mut self, exposure: Result<Exposure, u8>) {
        let at = match exposure {
            Err(_) => 0,
            Ok(Exposure { remainder: 0, .. }) => 1,
            Ok(_) => 2,
        };
        self.exposures[at] += 1;
    }

    fn join(&mut self, other: &Tally) {
        self.traces += other.traces;
        let kinds = self.kinds.iter_mut().zip(other.kinds);
        let refused = self.refused.iter_mut().zip(other.refused);
        let intervals = self.intervals.iter_mut().zip(other.intervals);
        let exposures = self.exposures.iter_mut().zip(other.exposures);
        let accepted = self.accepted.iter_mut().zip(other.accepted);
        let shared = self.shared.iter_mut().zip(other.shared);
        let sums = kinds.chain(refused).chain(intervals).chain(exposures);
        let sums = sums.chain(accepted).chain(shared);
        sums.for_each(|(sum, more)| *sum += more);
        self.torn += other.torn;
        self.no_bytes.join(&other.no_bytes);
    }
}

/// The moment is the kept byte's last store.
fn is_torn(finding: &Finding) -> bool {
    finding.kind == Kind::OutOfOrder
        && finding.moment == finding.store
        && finding.lost / 64 == finding.kept / 64
}

/// The word with this number among those of one length, behind the events of `front`.
fn word(front: &[Event], alphabet: &[Event], length: usize, mut number: usize) -> Vec<Record> {
    let mut events = front.to_vec();
    for _ in 0..length {
        events.push(alphabet[number % alphabet.len()]);
        number /= alphabet.len();
    }
    let with_site = |(event, site)| Record { event, site };
    events.into_iter().zip(100..).map(with_site).collect()
}

fn compare(records: &[Record]) -> Outcome {
    let trace = trace::write(LINES, &[], records);
    let area = trace::RECORD * records.len();
    let direct = judge(&trace, area);
    let enumerated = judge_by_images(&trace, area);
    let text = || script::text_of(&trace).expect("the trailer is good");
    assert_eq!(direct, enumerated, "{}", text());
    // A transaction left open refuses the trace: compare its findings too.
    if direct == Outcome::refused(13, 0) {
        let direct = findings_with::<Run>(LINES, records);
        let enumerated = findings_with::<History>(LINES, records);
        assert!(direct.is_ok());
        assert_eq!(direct, enumerated, "{}", text());
    }
    direct
}

/// Compares the intervals of every byte after the last event, epochs and events, with each other and
/// with the epochs alone, and the exposures with each other and with the intervals. The exposure by
/// images reads the intervals off images too. Refused events are passed over.
fn compare_intervals(records: &[Record], tally: &mut Tally) {
    let (mut direct, mut history) = (Run::fresh(LINES), History::fresh(LINES));
    for record in records {
        assert_eq!(direct.give(record), history.give(record), "{records:?}");
    }
    tally.traces += 1;
    let (mut sum, mut count) = (0, 0);
    for byte in 0..direct.window() {
        let interval = direct.interval(byte);
        assert_eq!(interval, history.interval(byte), "{byte}: {records:?}");
        tally.add_interval(interval);
        let epochs = [direct.epochs(byte), history.epochs(byte)];
        assert_eq!(epochs, [interval.epochs(); 2], "{byte}: {records:?}");
        if let Epochs::Closed(opened, closed) = interval.epochs() {
            assert!(opened < closed, "{byte}: {records:?}");
            sum += closed - opened;
            count += 1;
        }
    }
    let exposure = direct.exposure();
    assert_eq!(exposure, history.exposure(), "{records:?}");
    assert_mean(exposure, sum, count);
    tally.add_exposure(exposure);
}

/// Compares the list with the one that has none of its events with a range of no bytes: the findings
/// of the others, and what can be asked after the last event. Refused events are passed over.
fn compare_without(records: &[Record], tally: &mut Tally) {
    let mut beside = Beside::<Run>::fresh(LINES);
    for record in records {
        if beside.give(record).is_ok() {
            tally.no_bytes.add([record.event]);
        }
    }
    beside.compare();
}

/// The exposure is the mean of a sum over so many bytes.
fn assert_mean(exposure: Result<Exposure, u8>, sum: usize, count: usize) {
    let Ok(exposure) = exposure else {
        return assert_eq!((exposure, count), (Err(17), 0));
    };
    let Exposure {
        quotient,
        remainder,
        divisor,
    } = exposure;
    assert!(remainder < divisor && quotient >= 1, "{exposure:?}");
    assert_eq!((quotient * divisor + remainder, divisor), (sum, count));
}

/// Compares the outcomes of all traces of `front` and then `lengths` events of the alphabet.
fn compare_all(front: &[Event], alphabet: &[Event], lengths: RangeInclusive<usize>) -> Tally {
    for_all(front, alphabet, lengths, |records, tally| {
        tally.add(&compare(records));
    })
}

/// Calls `each` for all lists of `front` and then `lengths` events of the alphabet.
fn for_all(
    front: &[Event],
    alphabet: &[Event],
    lengths: RangeInclusive<usize>,
    each: impl Fn(&[Record], &mut Tally) + Sync,
) -> Tally {
    let _guard = ONE_AT_A_TIME
        .lock()
        .unwrap_or_else(|poisoned| poisoned.into_inner());
    let mut tally = Tally::default();
    for length in lengths {
        let words = alphabet.len().pow(length as u32);
        let share = |first: usize| {
            let mut tally = Tally::default();
            for number in (first..words).step_by(THREADS) {
                each(&word(front, alphabet, length, number), &mut tally);
            }
            tally
        };
        std::thread::scope(|scope| {
            let share = &share;
            let shares: Vec<_> = (0..THREADS)
                .map(|first| scope.spawn(move || share(first)))
                .collect();
            for share in shares {
                tally.join(&share.join().expect("the two ways agree"));
            }
        });
    }
    println!("{tally:?}");
    tally
}

fn assert_found(tally: &Tally, kinds: &[Kind]) {
    for kind in kinds {
        assert!(tally.kinds[usize::from(kind.number())] > 0, "no {kind:?}");
    }
}

#[test]
fn everything_up_to_five_events() {
    let tally = compare_all(&[], &EVERYTHING, 0..=5);
    assert_eq!(tally.traces, 1 + 16 + 256 + 4_096 + 65_536 + 1_048_576);
    assert_found(&tally, &Kind::ALL);
    assert!(tally.refused[11] > 0 && tally.refused[13] > 0);
}

#[test]
fn assertions_with_six_events() {
    let tally = compare_all(&[], &ASSERTIONS, 6..=6);
    assert_eq!(tally.traces, 531_441);
    assert_found(&tally, &[Kind::Holds, Kind::Lost, Kind::OutOfOrder]);
    assert_eq!(tally.refused.iter().sum::<usize>(), 0);
}

#[test]
fn begin_and_six_events() {
    let tally = compare_all(&[Event::Begin], &TRANSACTIONS, 6..=6);
    assert_eq!(tally.traces, 262_144);
    let kinds = [
        Kind::Holds,
        Kind::Lost,
        Kind::Unlogged,
        Kind::LoggedTwice,
        Kind::Empty,
    ];
    assert_found(&tally, &kinds);
    assert!(tally.refused[11] > 0 && tally.refused[13] > 0);
}

#[test]
fn torn_stores_up_to_five_events() {
    let tally = compare_all(&[], &TORN, 0..=5);
    assert_eq!(tally.traces, 1 + 13 + 169 + 2_197 + 28_561 + 371_293);
    assert_found(&tally, &[Kind::Holds, Kind::Lost, Kind::OutOfOrder]);
    assert_eq!(tally.refused.iter().sum::<usize>(), 0);
    assert!(tally.torn > 10_000, "{}", tally.torn);
}

#[test]
fn torn_stores_with_six_events() {
    let tally = compare_all(&[], &WORDS, 6..=6);
    assert_eq!(tally.traces, 262_144);
    assert_found(&tally, &[Kind::Holds, Kind::OutOfOrder]);
    assert_eq!(tally.refused.iter().sum::<usize>(), 0);
    assert!(tally.torn > 10_000, "{}", tally.torn);
}

/// A list of each length is compared after its last event, so every list after every event.
#[test]
fn intervals_up_to_seven_events() {
    let tally = for_all(&[], &INTERVALS, 0..=7, compare_intervals);
    let lists = 1 + 7 + 49 + 343 + 2_401 + 16_807 + 117_649 + 823_543;
    assert_eq!(tally.traces, lists);
    assert_eq!(tally.intervals.iter().sum::<usize>(), 128 * lists);
    assert!(tally.intervals.iter().all(|&count| count > 0));
    assert_eq!(tally.exposures.iter().sum::<usize>(), lists);
    assert!(tally.exposures.iter().all(|&count| count > 4_000));
}

/// Fewer kinds of event behind a store and a fence, for exposures with a remainder.
#[test]
fn exposures_with_up_to_seven_events() {
    let front = [Event::Store(r(61, 5)), Event::Fence];
    let tally = for_all(&front, &EXPOSURES, 0..=7, compare_intervals);
    let lists = 1 + 5 + 25 + 125 + 625 + 3_125 + 15_625 + 78_125;
    assert_eq!(tally.traces, lists);
    assert_eq!(tally.exposures.iter().sum::<usize>(), lists);
    assert!(tally.exposures.iter().all(|&count| count > 3_000));
}

/// With assertions and transactions among the events, refused ones too.
#[test]
fn intervals_of_everything_up_to_four_events() {
    let tally = for_all(&[], &EVERYTHING, 0..=4, compare_intervals);
    let lists = 1 + 16 + 256 + 4_096 + 65_536;
    assert_eq!(tally.traces, lists);
    assert_eq!(tally.intervals.iter().sum::<usize>(), 128 * lists);
    assert!(tally.intervals.iter().all(|&count| count > 0));
}

/// The outcomes of both ways, and the lists without the events with a range of no bytes.
fn compare_no_bytes(records: &[Record], tally: &mut Tally) {
    tally.add(&compare(records));
    compare_without(records, tally);
}

#[test]
fn no_bytes_up_to_five_events() {
    let tally = for_all(&[], &NO_BYTES, 0..=5, compare_no_bytes);
    assert_eq!(tally.traces, 1 + 16 + 256 + 4_096 + 65_536 + 1_048_576);
    assert_found(&tally, &Kind::ALL);
    assert!(tally.refused[11] > 0 && tally.refused[13] > 0);
    assert!(tally.no_bytes.least() > 10_000, "{}", tally.no_bytes);
}

#[test]
fn no_bytes_in_transactions() {
    let front = [Event::Begin];
    let tally = for_all(&front, &EMPTY_TRANSACTIONS, 6..=6, compare_no_bytes);
    assert_eq!(tally.traces, 262_144);
    let kinds = [
        Kind::Holds,
        Kind::Lost,
        Kind::Unlogged,
        Kind::LoggedTwice,
        Kind::Empty,
    ];
    assert_found(&tally, &kinds);
}

#[test]
fn no_bytes_in_torn_stores() {
    let tally = for_all(&[], &EMPTY_WORDS, 0..=5, compare_no_bytes);
    assert_eq!(tally.traces, 1 + 9 + 81 + 729 + 6_561 + 59_049);
    assert_found(&tally, &[Kind::Holds, Kind::OutOfOrder]);
    assert_eq!(tally.refused.iter().sum::<usize>(), 0);
    assert!(tally.torn > 1_000, "{}", tally.torn);
}

/// A list of each length is compared after its last event, so every list after every event.
#[test]
fn no_bytes_in_intervals() {
    let tally = for_all(&[], &EMPTY_INTERVALS, 0..=6, |records, tally| {
        compare_intervals(records, tally);
        compare_without(records, tally);
    });
    let lists = 1 + 8 + 64 + 512 + 4_096 + 32_768 + 262_144;
    assert_eq!(tally.traces, lists);
    assert_eq!(tally.intervals.iter().sum::<usize>(), 128 * lists);
    assert!(tally.intervals.iter().all(|&count| count > 0));
    assert!(tally.exposures.iter().all(|&count| count > 100));
}

/// Behind a store and a fence, for exposures with a remainder.
#[test]
fn no_bytes_in_exposures() {
    let front = [Event::Store(r(61, 5)), Event::Fence];
    let tally = for_all(&front, &EMPTY_INTERVALS, 0..=5, |records, tally| {
        compare_intervals(records, tally);
        compare_without(records, tally);
    });
    let lists = 1 + 8 + 64 + 512 + 4_096 + 32_768;
    assert_eq!(tally.traces, lists);
    assert!(tally.exposures.iter().all(|&count| count > 100));
}

/// With assertions and transactions among the events, refused ones too.
#[test]
fn no_bytes_of_everything_up_to_four_events() {
    let tally = for_all(&[], &NO_BYTES, 0..=4, compare_intervals);
    let lists = 1 + 16 + 256 + 4_096 + 65_536;
    assert_eq!(tally.traces, lists);
    assert!(tally.intervals.iter().all(|&count| count > 0));
}

/// Gives the events singly, and those alone that were accepted to another run: both get the same
/// findings, and the same answers after the last event.
fn compare_accepted(records: &[Record], tally: &mut Tally) {
    let (mut every, mut accepted) = (Run::fresh(LINES), Run::fresh(LINES));
    for record in records {
        match every.give(record) {
            Ok(finding) => {
                assert_eq!(accepted.give(record), Ok(finding), "{records:?}");
                orders::count(&mut tally.accepted, [record.event]);
            }
            Err(18) => orders::count(&mut tally.shared, [record.event]),
            Err(_) => {}
        }
    }
    for byte in 0..every.window() {
        let interval = every.interval(byte);
        assert_eq!(interval, accepted.interval(byte), "{byte}: {records:?}");
    }
    assert_eq!(every.exposure(), accepted.exposure(), "{records:?}");
    assert_eq!(every.close(), accepted.close(), "{records:?}");
}

#[test]
fn shared_bytes_up_to_five_events() {
    let tally = for_all(&[], &SHARED, 0..=5, |records, tally| {
        tally.add(&compare(records));
        compare_accepted(records, tally);
    });
    assert_eq!(tally.traces, 1 + 13 + 169 + 2_197 + 28_561 + 371_293);
    assert_found(&tally, &[Kind::Holds, Kind::Lost, Kind::OutOfOrder]);
    assert!(tally.refused[11] > 0 && tally.refused[13] > 0 && tally.refused[18] > 0);
    assert_eq!(tally.accepted[orders::SHARE], 0);
    assert!(tally.accepted[orders::TOUCH] > 0 && tally.accepted[orders::NO_BYTE_INSIDE] > 0);
    let shared = tally.shared[orders::SHARE];
    assert!(shared > 0 && shared == tally.shared.iter().sum());
}

/// Both ways, with the refused events passed over.
#[test]
fn shared_bytes_in_intervals() {
    let tally = for_all(&[], &SHARED, 0..=4, compare_intervals);
    assert_eq!(tally.traces, 1 + 13 + 169 + 2_197 + 28_561);
    assert!(tally.intervals.iter().all(|&count| count > 0));
}
