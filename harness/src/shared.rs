//! Ranges of an `ordered` that share a byte, which 18 refuses, that touch at an edge, or of which one has no byte and lies
//! inside the other: put into records at random, and counted.

use crate::differential::add_each;
use crate::no_bytes::{put_range, window};
use reference::event::{Event, Range, Record, LINE};
use reference::outcome::Outcome;
use reference::random::Random;
use reference::trace::{self, RECORD, TRAILER};
use std::ops::AddAssign;

/// Whether a byte is in both ranges.
pub fn share(a: Range, b: Range) -> bool {
    a.bytes().any(|byte| b.covers(byte))
}

/// Whether both have bytes, and one ends where the other starts.
fn touch(a: Range, b: Range) -> bool {
    let edge = a.end() == usize::from(b.address) || b.end() == usize::from(a.address);
    a.has_bytes() && b.has_bytes() && edge
}

/// Whether one has no byte, at an address between the edges of the other.
fn empty_inside(a: Range, b: Range) -> bool {
    let inside = |one: Range, other: Range| {
        !one.has_bytes() && one.address > other.address && one.end() < other.end()
    };
    inside(a, b) || inside(b, a)
}

fn fit(a: Range, b: Range, window: usize) -> bool {
    a.end() <= window && b.end() <= window
}

/// The ranges A and B of an ordered that neither 6 nor 7 refuses.
fn ranges(record: &[u8; RECORD]) -> Option<(Range, Range)> {
    match trace::read(record) {
        Ok(Record {
            event: Event::Ordered(a, b),
            ..
        }) => Some((a, b)),
        _ => None,
    }
}

/// Whether the record is an ordered whose ranges share a byte.
pub fn shares(record: &[u8; RECORD]) -> bool {
    ranges(record).is_some_and(|(a, b)| share(a, b))
}

/// Whether the record is an ordered whose ranges share a byte and do not run past the window.
pub fn refused_by_18(record: &[u8; RECORD], window: usize) -> bool {
    shares(record) && ranges(record).is_some_and(|(a, b)| fit(a, b, window))
}

/// The most bytes of a range that is drawn beside another one.
const MOST: usize = 16;

/// Draws ranges for an ordered from one inside the window.
pub type Drawn = fn(&mut Random, Range, usize) -> [Range; 2];

/// A and one that shares a byte with it: A itself, a part of it, one around it, or one that has only its first or its last
/// byte.
pub fn sharing(random: &mut Random, a: Range, window: usize) -> [Range; 2] {
    let a = with_byte(a, window);
    let (start, end) = (a.bytes().start, a.end());
    let (before, behind) = edges_around(random, a, window);
    let b = match random.below(5) {
        0 => a,
        1 => {
            let from = start + random.below(end - start);
            range(from, from + 1 + random.below(end - from))
        }
        2 => range(before, behind),
        3 => range(before, start + 1),
        _ => range(end - 1, behind),
    };
    [a, b]
}

/// A and one that shares no byte with it: one that touches it at an edge, or one of no bytes inside it; around an A of no
/// bytes, one that may have some.
pub fn beside(random: &mut Random, a: Range, window: usize) -> [Range; 2] {
    let (start, end) = (a.bytes().start, a.end());
    let (before, behind) = edges_around(random, a, window);
    let b = match random.below(3) {
        _ if !a.has_bytes() => range(before, behind),
        0 => range(before, start),
        1 => range(end, behind),
        _ => {
            let at = start + random.below(end - start + 1);
            range(at, at)
        }
    };
    [a, b]
}

/// A and one that shares a byte with it and runs past the window, or past 65,535.
pub fn past(random: &mut Random, a: Range, window: usize) -> [Range; 2] {
    let a = with_byte(a, window);
    let from = random.pick(&[a.bytes().start, a.end() - 1]);
    let to = random.pick(&[window + 1, window + LINE, from + 65_535]);
    [a, range(from, to)]
}

/// The range, or a byte at its address if it has none; at the window's size the last one.
fn with_byte(range: Range, window: usize) -> Range {
    match range.has_bytes() {
        true => range,
        false => Range::new(range.address.min(window as u16 - 1), 1),
    }
}

/// An address before the range and one behind it, each at most so many bytes from its edge, or at the edge.
fn edges_around(random: &mut Random, range: Range, window: usize) -> (usize, usize) {
    let (start, end) = (range.bytes().start, range.end());
    let before = start - random.below(start.min(MOST) + 1);
    let behind = end + random.below((window - end).min(MOST) + 1);
    (before, behind)
}

fn range(from: usize, to: usize) -> Range {
    Range::new(from as u16, (to - from) as u16)
}

/// Puts ranges drawn from its A into a record, in either order, if it is an ordered whose A is inside the window.
pub fn put(random: &mut Random, record: &mut [u8; RECORD], window: usize, drawn: Drawn) {
    let Some((a, _)) = ranges(record).filter(|(a, _)| a.end() <= window) else {
        return;
    };
    let mut pair = drawn(random, a, window);
    if random.chance(1, 2) {
        pair.reverse();
    }
    put_range(record, 2, pair[0]);
    put_range(record, 6, pair[1]);
}

/// Puts ranges that share no byte into half of the ordered of a trace. In some traces the ranges of one ordered share a byte,
/// in some of these one runs past the window.
pub fn put_some(random: &mut Random, trace: &mut [u8]) {
    let Ok(body) = trace::open(trace) else {
        return;
    };
    let (start, window) = (body.free.len(), window(&body));
    let end = trace.len() - TRAILER;
    let records = trace[start..end].chunks_exact_mut(RECORD);
    let records = records.map(|record| record.try_into().expect("the bytes of a record"));
    let mut ordered: Vec<&mut [u8; RECORD]> = records
        .filter(|record: &&mut [u8; RECORD]| record[0] == Event::ORDERED)
        .collect();
    if ordered.is_empty() {
        return;
    }
    for record in &mut ordered {
        if random.chance(1, 2) {
            put(random, record, window, beside);
        }
    }
    let one = random.below(ordered.len());
    match random.below(8) {
        0..=2 => put(random, ordered[one], window, sharing),
        3 => put(random, ordered[one], window, past),
        _ => {}
    }
}

/// What is counted of ordered.
const NAMES: [&str; 3] = [
    "ordered accepted whose ranges touch at an edge",
    "ordered accepted with a range of no bytes inside the other",
    "ordered refused by 9 whose ranges share a byte",
];

/// What records had of such ranges, by the answers of the unrelated checker.
#[derive(Clone, Default)]
pub struct Counts([u64; NAMES.len()]);

impl Counts {
    /// Counts the records of an accepted trace, or the one that is refused.
    pub fn add_trace(&mut self, trace: &[u8], outcome: &Outcome) {
        let Ok(body) = trace::open(trace) else {
            return;
        };
        let mut records = body.record_bytes();
        match outcome {
            Outcome::Accepted(_) => records.for_each(|record| self.add(record, 0)),
            Outcome::Refused(refusal) => {
                let record = refusal.record.checked_sub(1).and_then(|at| records.nth(at));
                if let Some(record) = record {
                    self.add(record, refusal.number.into());
                }
            }
        }
    }

    /// Counts a record by the number that it is refused by, 0 if it is accepted.
    pub fn add(&mut self, record: &[u8; RECORD], number: u32) {
        let Some((a, b)) = ranges(record) else {
            return;
        };
        let counted = match number {
            0 => [touch(a, b), empty_inside(a, b), false],
            9 => [false, false, share(a, b)],
            _ => return,
        };
        add_each(&mut self.0, &counted.map(u64::from));
    }

    pub fn named(&self) -> impl Iterator<Item = (String, u64)> + '_ {
        let counts = NAMES.iter().zip(self.0);
        counts.map(|(name, count)| (name.to_string(), count))
    }
}

impl AddAssign for Counts {
    fn add_assign(&mut self, other: Counts) {
        add_each(&mut self.0, &other.0);
    }
}

#[cfg(test)]
pub mod tests {
    use super::*;

    /// Lets an ordered of the window be taken whose ranges share a byte: its B has none.
    pub fn take_shared(record: &mut [u8; RECORD], window: usize) {
        if refused_by_18(record, window) {
            put_range(record, 6, Range::new(0, 0));
        }
    }

    /// The same where they share only the last byte of one of them.
    pub fn take_last_byte(record: &mut [u8; RECORD], window: usize) {
        let last = |(a, b): (Range, Range)| {
            a.end() == usize::from(b.address) + 1 || b.end() == usize::from(a.address) + 1
        };
        if ranges(record).is_some_and(last) {
            take_shared(record, window);
        }
    }

    /// Has an ordered refused by 18.
    fn refuse(record: &mut [u8; RECORD]) {
        put_range(record, 2, Range::new(0, 1));
        put_range(record, 6, Range::new(0, 1));
    }

    /// Has an ordered of the window refused by 18 whose ranges touch at an edge.
    pub fn refuse_touching(record: &mut [u8; RECORD], window: usize) {
        if ranges(record).is_some_and(|(a, b)| touch(a, b) && fit(a, b, window)) {
            refuse(record);
        }
    }

    /// The same with a range of no bytes inside the other.
    pub fn refuse_empty_inside(record: &mut [u8; RECORD], window: usize) {
        if ranges(record).is_some_and(|(a, b)| empty_inside(a, b) && fit(a, b, window)) {
            refuse(record);
        }
    }

    /// Has an ordered refused by 18, and not by 9, whose ranges share a byte.
    pub fn refuse_before_9(record: &mut [u8; RECORD], _window: usize) {
        if shares(record) {
            refuse(record);
        }
    }

    /// The number, from 1, of the first record that 18 refuses if no number comes before it.
    pub fn first_refused(trace: &[u8]) -> Option<u32> {
        let body = trace::open(trace).ok()?;
        let window = window(&body);
        let at = body
            .record_bytes()
            .position(|record| refused_by_18(record, window))?;
        Some(at as u32 + 1)
    }

    /// Pairs by whether they share a byte, touch at an edge, or have one of no bytes inside the other.
    const PAIRS: [([u16; 4], [bool; 3]); 15] = [
        ([0, 8, 0, 8], [true, false, false]),
        ([0, 8, 2, 3], [true, false, false]),
        ([2, 3, 0, 8], [true, false, false]),
        ([0, 8, 7, 8], [true, false, false]),
        ([7, 8, 0, 8], [true, false, false]),
        ([3, 1, 3, 1], [true, false, false]),
        ([0, 8, 8, 8], [false, true, false]),
        ([8, 8, 0, 8], [false, true, false]),
        ([0, 8, 9, 8], [false, false, false]),
        ([0, 8, 4, 0], [false, false, true]),
        ([4, 0, 0, 8], [false, false, true]),
        ([0, 8, 0, 0], [false, false, false]),
        ([0, 8, 8, 0], [false, false, false]),
        ([4, 0, 4, 0], [false, false, false]),
        ([4, 0, 4, 1], [false, false, false]),
    ];

    #[test]
    fn pairs_are_told_apart() {
        for ([a, a_length, b, b_length], expected) in PAIRS {
            let (a, b) = (Range::new(a, a_length), Range::new(b, b_length));
            let told = [share(a, b), touch(a, b), empty_inside(a, b)];
            assert_eq!(told, expected, "{a} and {b}");
        }
    }

    /// Ranges drawn from any A of windows of one line and of 64.
    fn drawn_pairs(drawn: Drawn) -> Vec<(usize, [Range; 2])> {
        let mut random = Random::new(1);
        let pair = |number: usize| {
            let window = [LINE, 64 * LINE][number % 2];
            let start = random.below(window + 1);
            let length = random.below((window - start).min(24) + 1);
            let a = range(start, start + length);
            (window, drawn(&mut random, a, window))
        };
        (0..2_000).map(pair).collect()
    }

    #[test]
    fn ranges_are_drawn_as_asked() {
        for (window, [a, b]) in drawn_pairs(sharing) {
            assert!(share(a, b) && fit(a, b, window), "{a} and {b}");
        }
        for (window, [a, b]) in drawn_pairs(past) {
            assert!(share(a, b) && !fit(a, b, window), "{a} and {b}");
        }
        let mut counts = [0; 2];
        for (window, [a, b]) in drawn_pairs(beside) {
            assert!(!share(a, b) && fit(a, b, window), "{a} and {b}");
            add_each(
                &mut counts,
                &[touch(a, b), empty_inside(a, b)].map(u64::from),
            );
        }
        assert!(counts.iter().all(|&count| count > 300), "{counts:?}");
    }

    #[test]
    fn every_way_to_share_is_drawn() {
        let ways: [fn(Range, Range) -> bool; 5] = [
            |a, b| a == b,
            |a, b| b.address > a.address && b.end() < a.end(),
            |a, b| b.address < a.address && b.end() > a.end(),
            |a, b| b.address < a.address && b.end() == usize::from(a.address) + 1,
            |a, b| usize::from(b.address) + 1 == a.end() && b.end() > a.end(),
        ];
        let pairs = drawn_pairs(sharing);
        for (number, way) in ways.iter().enumerate() {
            let count = pairs.iter().filter(|(_, [a, b])| way(*a, *b)).count();
            assert!(count > 100, "{number}: {count}");
        }
    }

    #[test]
    fn ordered_are_counted_by_their_answers() {
        let counted = |a: [u16; 2], b: [u16; 2]| {
            let [a, b] = [a, b].map(|[address, length]| Range::new(address, length));
            let record = trace::raw_record(Event::ORDERED, 0, a, b, 7);
            let store = trace::raw_record(Event::STORE, 0, Range::new(0, 8), Range::new(0, 0), 7);
            let trace = trace::assemble(1, &[], &[store, record]);
            let mut counts = Counts::default();
            counts.add_trace(&trace, &reference::judge(&trace, trace.len()));
            counts.0
        };
        assert_eq!(counted([0, 8], [8, 8]), [1, 0, 0]);
        assert_eq!(counted([0, 8], [4, 0]), [0, 1, 0]);
        assert_eq!(counted([0, 8], [0, 65]), [0, 0, 1]);
        assert_eq!(counted([0, 8], [8, 57]), [0, 0, 0]);
        assert_eq!(counted([0, 8], [7, 8]), [0, 0, 0]);
    }
}
