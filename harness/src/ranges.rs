//! A checker of address ranges as PMTest has them, not proved: shadow memory is an ordered map from address ranges to
//! what is known of them, and assertions compare persist intervals.
//!
//! It takes the same traces and writes the same findings as the judge. One rule is PMTest's: `ordered`
//! holds where the intervals of A end before those of B begin, whatever lines the bytes are in. So it
//! reports two stores to one line, without a fence between, where the judge says that they are ordered,
//! and any two bytes of one store, where the judge tells its words apart.

use crate::judge::Answer;
use crate::plain::{lines_of, open, Event, Finding, LINE};
use std::collections::BTreeMap;
use std::ops::Range;

/// Judges a trace into a findings area.
pub fn judge(trace: &[u8], area: &mut [u8]) -> Answer {
    match open(trace, area) {
        Ok(records) => {
            let mut run = Run::default();
            records.judge_each(area, |event| run.give(event))
        }
        Err(refusal) => refusal,
    }
}

/// Values of address ranges, each as long as it can be: equal neighbours are joined. No part is without a byte.
#[derive(Default)]
struct RangeMap<T> {
    /// From a part's start to its end and value.
    parts: BTreeMap<usize, (usize, T)>,
}

impl<T: Copy + PartialEq> RangeMap<T> {
    /// The parts inside the range, cut at its edges, lowest first. Inside a range of no bytes there is none.
    fn inside(&self, range: Range<usize>) -> impl Iterator<Item = (Range<usize>, T)> + '_ {
        let before = self.parts.range(..range.start).next_back();
        let first = match before {
            Some((&start, &(end, _))) if end > range.start && !range.is_empty() => start,
            _ => range.start,
        };
        let parts = self.parts.range(first..range.end);
        parts
            .map(move |(&start, &(end, value))| (start.max(range.start)..end.min(range.end), value))
    }

    /// Gives the whole range a value.
    fn set(&mut self, range: Range<usize>, value: T) {
        if range.is_empty() {
            return;
        }
        self.split(range.start);
        self.split(range.end);
        while let Some((&start, _)) = self.parts.range(range.clone()).next() {
            self.parts.remove(&start);
        }
        self.parts.insert(range.start, (range.end, value));
        self.join(range.start);
        self.join(range.end);
    }

    /// Changes the values inside the range.
    fn update(&mut self, range: Range<usize>, mut change: impl FnMut(&mut T)) {
        if range.is_empty() {
            return;
        }
        self.split(range.start);
        self.split(range.end);
        let mut edges = vec![range.start, range.end];
        for (&start, (end, value)) in self.parts.range_mut(range) {
            let before = *value;
            change(value);
            if *value != before {
                edges.extend([start, *end]);
            }
        }
        for edge in edges {
            self.join(edge);
        }
    }

    /// Makes the address an edge if a part lies across it.
    fn split(&mut self, at: usize) {
        if let Some((_, (end, value))) = self.parts.range_mut(..at).next_back() {
            if *end > at {
                let rest = (*end, *value);
                *end = at;
                self.parts.insert(at, rest);
            }
        }
    }

    /// Joins the parts that meet at the address, if their values are equal.
    fn join(&mut self, at: usize) {
        let Some(&(joined_end, right)) = self.parts.get(&at) else {
            return;
        };
        if let Some((_, (end, left))) = self.parts.range_mut(..at).next_back() {
            if *end == at && *left == right {
                *end = joined_end;
                self.parts.remove(&at);
            }
        }
    }
}

/// What is known of bytes that have been stored to.
#[derive(Clone, Copy, Default, PartialEq)]
struct Shadow {
    /// The event of the last store.
    store: u16,
    /// The epoch of the last store: its persist interval begins here.
    opened: u16,
    /// Whether a write-back has followed.
    written_back: bool,
    /// The epoch in which the persist interval ends, if it does.
    closed: Option<u16>,
}

impl Shadow {
    /// Whether this interval ends before the other one begins.
    fn ends_before(&self, other: &Shadow) -> bool {
        self.closed.is_some_and(|closed| closed <= other.opened)
    }
}

#[derive(Default)]
struct Run {
    event: u16,
    epoch: u16,
    shadow: RangeMap<Shadow>,
    /// The lines written back since the last fence.
    written: Vec<Range<usize>>,
    depth: usize,
    /// The ranges logged in this transaction.
    logged: RangeMap<()>,
    /// The ranges stored to in this transaction.
    modified: RangeMap<()>,
}

impl Run {
    fn give(&mut self, event: Event) -> Finding {
        self.event += 1;
        match event {
            Event::Store(a) => self.store(a),
            Event::WriteBack(a) => self.write_back(a),
            Event::Fence => self.fence(),
            Event::Begin => self.begin(),
            Event::Log(a) => self.log(a),
            Event::End => self.end(),
            Event::Persisted(a) => self.persisted(a).unwrap_or(Finding::HOLDS),
            Event::Ordered(a, b) => self.ordered(a, b),
        }
    }

    fn store(&mut self, a: Range<usize>) -> Finding {
        let shadow = Shadow {
            store: self.event,
            opened: self.epoch,
            written_back: false,
            closed: None,
        };
        self.shadow.set(a.clone(), shadow);
        if self.depth == 0 {
            return Finding::NONE;
        }
        self.modified.set(a.clone(), ());
        let unlogged = self.first_unlogged(a);
        unlogged.map_or(Finding::NONE, Finding::unlogged)
    }

    fn first_unlogged(&self, a: Range<usize>) -> Option<usize> {
        let mut next = a.start;
        for (part, ()) in self.logged.inside(a.clone()) {
            if part.start > next {
                break;
            }
            next = part.end;
        }
        (next < a.end).then_some(next)
    }

    fn write_back(&mut self, a: Range<usize>) -> Finding {
        let lines = lines_of(&a);
        if lines.is_empty() {
            return Finding::NONE;
        }
        let warning = lines.clone().find_map(|line| self.wasted(line));
        let bytes = lines.start * LINE..lines.end * LINE;
        self.shadow
            .update(bytes.clone(), |shadow| shadow.written_back = true);
        self.written.push(bytes);
        warning.unwrap_or(Finding::NONE)
    }

    /// The warning for a write-back of this line.
    fn wasted(&self, line: usize) -> Option<Finding> {
        let mut parts = self.shadow.inside(line * LINE..(line + 1) * LINE);
        let Some((_, first)) = parts.next() else {
            return Some(Finding::clean(line));
        };
        let again = first.written_back && parts.all(|(_, shadow)| shadow.written_back);
        again.then(|| Finding::written_twice(line))
    }

    fn fence(&mut self) -> Finding {
        self.epoch += 1;
        for bytes in self.written.drain(..) {
            self.shadow.update(bytes, |shadow| {
                if shadow.written_back && shadow.closed.is_none() {
                    shadow.closed = Some(self.epoch);
                }
            });
        }
        Finding::NONE
    }

    fn begin(&mut self) -> Finding {
        if self.depth == 0 {
            self.logged.parts.clear();
            self.modified.parts.clear();
        }
        self.depth += 1;
        Finding::NONE
    }

    fn log(&mut self, a: Range<usize>) -> Finding {
        let twice = self.logged.inside(a.clone()).next();
        self.logged.set(a, ());
        twice.map_or(Finding::NONE, |(part, ())| {
            Finding::logged_twice(part.start)
        })
    }

    fn end(&mut self) -> Finding {
        self.depth -= 1;
        if self.depth > 0 {
            return Finding::NONE;
        }
        let parts = &self.modified.parts;
        if parts.is_empty() {
            return Finding::EMPTY;
        }
        let lost = parts
            .iter()
            .find_map(|(&start, &(end, ()))| self.persisted(start..end));
        lost.unwrap_or(Finding::HOLDS)
    }

    /// The lowest byte whose interval has not ended, if there is one.
    fn persisted(&self, a: Range<usize>) -> Option<Finding> {
        let mut parts = self.shadow.inside(a);
        let open = parts.find(|(_, shadow)| shadow.closed.is_none());
        open.map(|(part, shadow)| Finding::lost(part.start, self.event, shadow.store))
    }

    fn ordered(&self, a: Range<usize>, b: Range<usize>) -> Finding {
        for (kept, later) in self.shadow.inside(b) {
            let mut parts = self.shadow.inside(a.clone());
            if let Some((lost, earlier)) = parts.find(|(_, earlier)| !earlier.ends_before(&later)) {
                return Finding::out_of_order(lost.start, kept.start, later.store, earlier.store);
            }
        }
        Finding::HOLDS
    }
}

#[cfg(test)]
mod tests {
    use super::{judge, RangeMap};
    use crate::differential::answer_of;
    use crate::plain::tests::random_trace;
    use crate::plain::RECORD;
    use reference::findings_bytes;
    use reference::random::Random;
    use reference::trace::open;

    const ORDERED: u8 = 8;
    const OUT_OF_ORDER: u8 = 3;

    #[derive(Debug, Default, PartialEq)]
    struct Counts {
        ordered: u32,
        /// Ordered events whose findings differ.
        differ: u32,
        /// Those of them that hold by the reference.
        hold: u32,
    }

    /// Counts the `ordered` events of a trace. The other findings have to be the same, and no
    /// broken assertion may be called good.
    fn compare(trace: &[u8], counts: &mut Counts) {
        let outcome = reference::judge(trace, trace.len());
        let expected = findings_bytes(&outcome);
        let mut area = vec![0; trace.len()];
        assert_eq!(judge(trace, &mut area), answer_of(&outcome), "{trace:?}");
        if expected.is_empty() {
            return;
        }
        let records = open(trace).expect("an accepted trace").records;
        let findings = area.chunks(RECORD).zip(expected.chunks(RECORD));
        for (record, (found, expected)) in records.chunks(RECORD).zip(findings) {
            counts.ordered += u32::from(record[0] == ORDERED);
            if found != expected {
                assert_eq!(record[0], ORDERED, "{found:?}, {expected:?}: {trace:?}");
                assert_eq!(found[0], OUT_OF_ORDER, "{expected:?}: {trace:?}");
                counts.differ += 1;
                counts.hold += u32::from(expected[0] != OUT_OF_ORDER);
            }
        }
    }

    #[test]
    fn ranges_of_no_bytes_are_not_set_split_or_found() {
        let mut map = RangeMap::default();
        map.set(4..4, 1);
        assert!(map.parts.is_empty());
        map.set(2..8, 1);
        for at in [0, 2, 4, 8, 9] {
            map.set(at..at, 2);
            map.update(at..at, |value| *value = 3);
            assert_eq!(map.inside(at..at).count(), 0, "{at}");
            assert!(map.parts.iter().eq([(&2, &(8, 1))]), "{at}");
        }
    }

    #[test]
    fn only_ordered_findings_differ_from_those_of_the_reference() {
        let mut random = Random::new(21);
        let mut counts = Counts::default();
        for _ in 0..20_000 {
            compare(&random_trace(&mut random), &mut counts);
        }
        let seen = Counts {
            ordered: 58_780,
            differ: 8_380,
            hold: 6_703,
        };
        assert_eq!(counts, seen);
    }
}
