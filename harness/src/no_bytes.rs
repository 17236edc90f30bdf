//! Ranges of no bytes in records: put there at random, and counted.

use crate::differential::add_each;
use reference::event::{Event, Range, LINE};
use reference::finding::{Finding, Kind};
use reference::outcome::{Outcome, Refusal};
use reference::random::Random;
use reference::trace::{self, Body, RECORD, TRAILER};
use std::ops::AddAssign;

/// The places of the ranges that a record of this kind uses: an address and a length of 16 bits each.
fn used(kind: u8) -> &'static [usize] {
    match kind {
        Event::STORE | Event::WRITE_BACK | Event::LOG | Event::PERSISTED => &[2],
        Event::ORDERED => &[2, 6],
        _ => &[],
    }
}

/// The places of the record's used ranges that have no byte.
fn places(record: &[u8; RECORD]) -> impl Iterator<Item = usize> + '_ {
    let ranges = used(record[0]).iter().copied();
    ranges.filter(|&at| range_at(record, at).length == 0)
}

fn range_at(record: &[u8; RECORD], at: usize) -> Range {
    let field = |at| u16::from_le_bytes([record[at], record[at + 1]]);
    Range::new(field(at), field(at + 2))
}

pub fn put_range(record: &mut [u8], at: usize, range: Range) {
    record[at..at + 2].copy_from_slice(&range.address.to_le_bytes());
    record[at + 2..at + 4].copy_from_slice(&range.length.to_le_bytes());
}

/// Whether a range that the record uses has no byte.
pub fn any_in(record: &[u8; RECORD]) -> bool {
    places(record).next().is_some()
}

/// Whether the record uses ranges, and none of them has a byte.
pub fn all_in(record: &[u8; RECORD]) -> bool {
    any_in(record) && places(record).count() == used(record[0]).len()
}

/// Whether a record of a trace with a good trailer uses a range of no bytes.
pub fn any_in_trace(trace: &[u8]) -> bool {
    trace::open(trace).is_ok_and(|body| body.record_bytes().any(any_in))
}

/// The bytes of the window.
pub fn window(body: &Body) -> usize {
    usize::from(body.lines) * LINE
}

/// A range of no bytes at an address up to the window's size, often there or at the edge of a line.
pub fn inside(random: &mut Random, window: usize) -> Range {
    let address = match random.below(4) {
        0 => window,
        1 => LINE * random.below(window / LINE + 1),
        _ => random.below(window + 1),
    };
    Range::new(address as u16, 0)
}

/// A range of no bytes at an address beyond the window's size, often the next.
pub fn beyond(random: &mut Random, window: usize) -> Range {
    let addresses = [window + 1, window + 1, window + LINE, 65_535];
    Range::new(random.pick(&addresses) as u16, 0)
}

/// Puts a range of no bytes in the place of one that the record uses, if it uses any; of two, at times
/// in the place of both.
pub fn put(random: &mut Random, record: &mut [u8], drawn: impl Fn(&mut Random) -> Range) {
    let places = used(record[0]);
    let left_out = match places.len() {
        2 => random.below(3),
        _ => 2,
    };
    for (place, &at) in places.iter().enumerate() {
        if place != left_out {
            put_range(record, at, drawn(random));
        }
    }
}

/// Puts ranges of no bytes into some records of a trace, or into all. In some traces one is beyond the window's
/// size.
pub fn put_some(random: &mut Random, trace: &mut [u8]) {
    let Ok(body) = trace::open(trace) else {
        return;
    };
    let (start, count, window) = (body.free.len(), body.count(), window(&body));
    let end = trace.len() - TRAILER;
    let odds = random.pick(&[1, 2, 8]);
    for record in trace[start..end].chunks_exact_mut(RECORD) {
        if random.chance(odds, 8) {
            put(random, record, |random| inside(random, window));
        }
    }
    if count > 0 && random.chance(1, 8) {
        let record = start + RECORD * random.below(count);
        put(random, &mut trace[record..], |random| {
            beyond(random, window)
        });
    }
}

/// What is counted of traces.
const NAMES: [&str; 10] = [
    "accepted traces with a range of no bytes",
    "stores of no bytes",
    "write-backs of no bytes",
    "logs of no bytes",
    "persisted of no bytes",
    "ordered whose A has no bytes",
    "ordered whose B has no bytes",
    "ranges of no bytes at the window's size",
    "empty ends with a store of no bytes in the transaction",
    "traces refused by 9 for a range of no bytes",
];
const TRACES: usize = 0;
const AT_SIZE: usize = 7;
const EMPTY_ENDS: usize = 8;
const REFUSED: usize = 9;

/// The count of a record of this kind for the range at this place.
fn count_of(kind: u8, at: usize) -> usize {
    match kind {
        Event::STORE => 1,
        Event::WRITE_BACK => 2,
        Event::LOG => 3,
        Event::PERSISTED => 4,
        _ if at == 2 => 5,
        _ => 6,
    }
}

/// What traces had of ranges of no bytes, by the answers of the unrelated checker.
#[derive(Clone, Default)]
pub struct Counts([u64; NAMES.len()]);

impl Counts {
    pub fn add(&mut self, trace: &[u8], outcome: &Outcome) {
        let Ok(body) = trace::open(trace) else {
            return;
        };
        match outcome {
            Outcome::Accepted(report) => self.add_accepted(&body, &report.findings),
            Outcome::Refused(refusal) => self.0[REFUSED] += u64::from(refuses(&body, refusal)),
        }
    }

    fn add_accepted(&mut self, body: &Body, findings: &[Finding]) {
        self.0[TRACES] += u64::from(body.record_bytes().any(any_in));
        for record in body.record_bytes() {
            for at in places(record) {
                self.0[count_of(record[0], at)] += 1;
                let at_size = usize::from(range_at(record, at).address) == window(body);
                self.0[AT_SIZE] += u64::from(at_size);
            }
        }
        let ends = empty_ends(body, |at| findings[at].kind == Kind::Empty);
        self.0[EMPTY_ENDS] += ends.len() as u64;
    }

    pub fn named(&self) -> impl Iterator<Item = (String, u64)> + '_ {
        let counts = NAMES.iter().zip(self.0);
        counts.map(|(name, count)| (name.to_string(), count))
    }
}

impl AddAssign for Counts {
    fn add_assign(&mut self, other: Counts) {
        add_each(&mut self.0, &other.0);
    }
}

/// Whether the refusal is by 9, for a record that uses no other ranges than those of no bytes.
fn refuses(body: &Body, refusal: &Refusal) -> bool {
    let mut records = body.record_bytes();
    refusal.number == 9 && records.nth(refusal.record - 1).is_some_and(all_in)
}

/// The places of the ends that are empty and have a store of no bytes in their transaction.
fn empty_ends(body: &Body, is_empty: impl Fn(usize) -> bool) -> Vec<usize> {
    let (mut depth, mut stored) = (0, false);
    let mut ends = Vec::new();
    for (at, record) in body.record_bytes().enumerate() {
        match record[0] {
            Event::BEGIN => depth += 1,
            Event::END => depth -= 1,
            Event::STORE => stored |= any_in(record),
            _ => {}
        }
        if depth == 0 {
            if stored && is_empty(at) {
                ends.push(at);
            }
            stored = false;
        }
    }
    ends
}

#[cfg(test)]
pub mod tests {
    use super::*;
    use crate::judge::Answer;
    use reference::Record;

    /// Another range for one of no bytes, in a window of so many bytes.
    pub type Replace = fn(Range, usize) -> Range;

    /// Beyond the window's size if it is there.
    pub fn beyond_size(range: Range, window: usize) -> Range {
        match usize::from(range.address) == window {
            true => Range::new(range.address + 1, 0),
            false => range,
        }
    }

    /// At the window's size if it is beyond.
    pub fn back_to_size(range: Range, window: usize) -> Range {
        Range::new(usize::from(range.address).min(window) as u16, 0)
    }

    /// The byte at its address, the window's last at the window's size; as it is beyond that.
    fn its_byte(range: Range, window: usize) -> Range {
        match usize::from(range.address) <= window {
            true => Range::new(range.address.min(window as u16 - 1), 1),
            false => range,
        }
    }

    /// Replaces the ranges of no bytes of a record.
    pub fn replace_in(record: &mut [u8; RECORD], window: usize, replace: Replace) {
        let empty: Vec<usize> = places(record).collect();
        for at in empty {
            let range = replace(range_at(record, at), window);
            put_range(record, at, range);
        }
    }

    /// The trace with each record changed for a window of so many bytes, if its trailer is good.
    pub fn changed(trace: &[u8], change: impl Fn(&mut [u8; RECORD], usize)) -> Vec<u8> {
        let Ok(body) = trace::open(trace) else {
            return trace.to_vec();
        };
        let mut records: Vec<_> = body.record_bytes().copied().collect();
        for record in &mut records {
            change(record, window(&body));
        }
        trace::assemble(body.lines, body.free, &records)
    }

    /// The trace with its ranges of no bytes replaced.
    pub fn replaced(trace: &[u8], replace: Replace) -> Vec<u8> {
        changed(trace, |record, window| replace_in(record, window, replace))
    }

    /// The trace in which ranges of no bytes have the byte at their address, in records of this kind.
    pub fn with_byte(trace: &[u8], kind: u8) -> Vec<u8> {
        changed(trace, |record, window| {
            if record[0] == kind {
                replace_in(record, window, its_byte);
            }
        })
    }

    /// Gives a record with a range of no bytes, which neither 6 nor 7 refuses, a kind that 6 refuses.
    pub fn hide(record: &mut [u8; RECORD]) {
        if trace::read(record).is_ok() && any_in(record) {
            record[0] = 0;
        }
    }

    /// The trace with the records hidden that have a range of no bytes.
    pub fn hidden(trace: &[u8]) -> Vec<u8> {
        changed(trace, |record, _| hide(record))
    }

    /// The number for a refusal of the trace with records hidden: 8 for a hidden one.
    pub fn with_8(trace: &[u8], number: u32, record: u32) -> u32 {
        if number != 6 {
            return number;
        }
        let body = trace::open(trace).expect("a record refused");
        let given = body.record_bytes().nth(record as usize - 1);
        match trace::read(given.expect("a record of the trace")) {
            Ok(_) => 8,
            Err(_) => 6,
        }
    }

    /// Sets the kinds of findings that an accepted trace left in an area: of the ends that are empty, with
    /// a store of no bytes in the transaction.
    pub fn set_empty_ends(trace: &[u8], area: &mut [u8], answer: Answer, kind: Kind) -> Answer {
        if let (Answer::Accepted { .. }, Ok(body)) = (answer, trace::open(trace)) {
            for end in empty_ends(&body, |at| area[RECORD * at] == Kind::Empty.number()) {
                area[RECORD * end] = kind.number();
            }
        }
        answer
    }

    /// The same of the records of this kind that have no byte in the range at this place.
    pub fn set_findings(
        trace: &[u8],
        area: &mut [u8],
        answer: Answer,
        (kind, at): (u8, usize),
        finding: Kind,
    ) -> Answer {
        if let (Answer::Accepted { .. }, Ok(body)) = (answer, trace::open(trace)) {
            for (record, place) in body.record_bytes().zip(area.chunks_exact_mut(RECORD)) {
                if record[0] == kind && places(record).any(|place| place == at) {
                    place[0] = finding.number();
                }
            }
        }
        answer
    }

    fn trace_of(lines: u16, events: &[Event]) -> Vec<u8> {
        let record = |&event| Record { event, site: 0 };
        let records: Vec<Record> = events.iter().map(record).collect();
        trace::write(lines, &[], &records)
    }

    fn counted(lines: u16, events: &[Event]) -> [u64; NAMES.len()] {
        let trace = trace_of(lines, events);
        let mut counts = Counts::default();
        counts.add(&trace, &reference::judge(&trace, trace.len()));
        counts.0
    }

    #[test]
    fn ranges_of_no_bytes_are_counted_by_their_events() {
        let (none, size, byte) = (Range::new(5, 0), Range::new(64, 0), Range::new(5, 1));
        let events = [
            Event::Store(none),
            Event::WriteBack(size),
            Event::Persisted(none),
            Event::Persisted(byte),
            Event::Ordered(none, byte),
            Event::Ordered(byte, size),
            Event::Ordered(size, none),
            Event::Begin,
            Event::Log(none),
            Event::End,
        ];
        assert_eq!(counted(1, &events), [1, 1, 1, 1, 1, 2, 2, 3, 0, 0]);
        assert_eq!(counted(1, &[Event::Store(byte)]), [0; 10]);
    }

    #[test]
    fn empty_ends_are_counted_if_a_store_of_no_bytes_is_in_the_transaction() {
        let (none, byte) = (
            Event::Store(Range::new(0, 0)),
            Event::Store(Range::new(0, 1)),
        );
        let (begin, end) = (Event::Begin, Event::End);
        for (events, stores, ends) in [
            (&[begin, none, end][..], 1, 1),
            (&[begin, begin, none, end, end], 1, 1),
            (&[begin, none, begin, end, end], 1, 1),
            (&[begin, none, end, begin, end], 1, 1),
            (&[none, begin, end], 1, 0),
            (&[begin, end, none], 1, 0),
            (&[begin, none, byte, end], 1, 0),
        ] {
            let counts = counted(1, events);
            assert_eq!(
                (counts[1], counts[EMPTY_ENDS]),
                (stores, ends),
                "{events:?}"
            );
        }
    }

    #[test]
    fn refusals_by_9_are_counted_if_no_other_range_is_there() {
        let (beyond, byte) = (Range::new(65, 0), Range::new(64, 1));
        let refused = |event| counted(1, &[Event::Fence, event])[REFUSED];
        assert_eq!(refused(Event::Store(beyond)), 1);
        assert_eq!(refused(Event::Ordered(beyond, beyond)), 1);
        assert_eq!(refused(Event::Ordered(beyond, byte)), 0);
        assert_eq!(refused(Event::Store(byte)), 0);
        assert_eq!(refused(Event::Log(Range::new(64, 0))), 0);
    }

    #[test]
    fn addresses_are_up_to_the_size_of_the_window_or_beyond_it() {
        let mut random = Random::new(1);
        for window in [64, 128, 4_096] {
            let drawn: Vec<Range> = (0..500).map(|_| inside(&mut random, window)).collect();
            let highest = drawn.iter().map(|range| usize::from(range.address)).max();
            assert_eq!(highest, Some(window));
            assert!(drawn.iter().all(|range| range.length == 0));
            let beyond = beyond(&mut random, window);
            assert!(usize::from(beyond.address) > window && beyond.length == 0);
        }
    }
}
