//! Events with a range of no bytes: how often each sort of them comes, and a list of events judged
//! with and without them.

use crate::event::{Event, Range, Record};
use crate::finding::{Finding, Kind};
use crate::outcome::Totals;
use crate::Way;
use std::fmt;

/// The sorts of event with a range of no bytes.
pub const SORTS: [&str; 7] = [
    "store",
    "write-back",
    "log",
    "persisted",
    "ordered A",
    "ordered B",
    "ordered A and B",
];

/// The event's place in [`SORTS`]; `None` if it has no range of no bytes.
pub fn sort(event: Event) -> Option<usize> {
    let empty = |range: Range| range.length == 0;
    match event {
        Event::Store(a) if empty(a) => Some(0),
        Event::WriteBack(a) if empty(a) => Some(1),
        Event::Log(a) if empty(a) => Some(2),
        Event::Persisted(a) if empty(a) => Some(3),
        Event::Ordered(a, b) if empty(a) && empty(b) => Some(6),
        Event::Ordered(a, _) if empty(a) => Some(4),
        Event::Ordered(_, b) if empty(b) => Some(5),
        _ => None,
    }
}

/// How often each sort came.
#[derive(Clone, Copy, Debug, Default, PartialEq, Eq)]
pub struct Counts([usize; SORTS.len()]);

impl Counts {
    pub fn of(events: impl IntoIterator<Item = Event>) -> Counts {
        let mut counts = Counts::default();
        counts.add(events);
        counts
    }

    pub fn add(&mut self, events: impl IntoIterator<Item = Event>) {
        for sort in events.into_iter().filter_map(sort) {
            self.0[sort] += 1;
        }
    }

    pub fn join(&mut self, other: &Counts) {
        let pairs = self.0.iter_mut().zip(other.0);
        pairs.for_each(|(sum, more)| *sum += more);
    }

    /// The count of the sort that came least often.
    pub fn least(&self) -> usize {
        self.0.into_iter().min().unwrap_or(0)
    }

    pub fn sum(&self) -> usize {
        self.0.iter().sum()
    }
}

impl fmt::Display for Counts {
    fn fmt(&self, f: &mut fmt::Formatter<'_>) -> fmt::Result {
        let words = SORTS.iter().zip(self.0);
        let words: Vec<String> = words
            .map(|(sort, count)| format!("{sort} {count}"))
            .collect();
        write!(f, "{}", words.join(", "))
    }
}

/// Two runs side by side. One gets every event; the other one gets only those without a range of no
/// bytes.
#[derive(Clone, Debug)]
pub struct Beside<W> {
    every: W,
    others: W,
    /// For each event number of the first run, from 0, that of the second one; [`TAKEN_OUT`] for
    /// an event that it did not get.
    numbers: Vec<u16>,
    /// Events that the second run did not get, and the assertions among them.
    taken_out: usize,
    holding: usize,
}

/// No event of these runs has this number.
const TAKEN_OUT: u16 = u16::MAX;

impl<W: Way> Beside<W> {
    pub fn fresh(lines: u16) -> Beside<W> {
        Beside {
            every: W::fresh(lines),
            others: W::fresh(lines),
            numbers: vec![0],
            taken_out: 0,
            holding: 0,
        }
    }

    /// How many events the second run did not get.
    pub fn taken_out(&self) -> usize {
        self.taken_out
    }

    /// Gives an event whose ranges are in the window. An event with a range of no bytes has to get `holds` if
    /// it is an assertion and nothing otherwise, or 11 if it is a log and nothing is open. Any other
    /// one has to get the same answer from both runs, but for the event numbers.
    pub fn give(&mut self, record: &Record) -> Result<Finding, u8> {
        let given = self.every.give(record);
        if sort(record.event).is_some() {
            self.check_taken_out(record, given);
        } else {
            let expected = self.others.give(record);
            if given.is_ok() {
                let number = self.numbers.iter().filter(|&&n| n != TAKEN_OUT).count();
                self.numbers.push(number as u16);
            }
            assert_eq!(given.map(|f| self.renumbered(f)), expected, "{record:?}");
        }
        given
    }

    fn check_taken_out(&mut self, record: &Record, given: Result<Finding, u8>) {
        let kind = match record.event {
            Event::Persisted(_) | Event::Ordered(..) => Kind::Holds,
            _ => Kind::None,
        };
        let nothing_open = self.others.close().is_ok();
        if matches!(record.event, Event::Log(_)) && nothing_open {
            return assert_eq!(given, Err(11), "{record:?}");
        }
        assert_eq!(given, Ok(Finding::of(kind).at(record.site)), "{record:?}");
        self.numbers.push(TAKEN_OUT);
        self.taken_out += 1;
        self.holding += usize::from(kind == Kind::Holds);
    }

    /// The finding with the event numbers of the second run.
    fn renumbered(&self, finding: Finding) -> Finding {
        let number = |number: u16| self.numbers[usize::from(number)];
        Finding {
            moment: number(finding.moment),
            store: number(finding.store),
            ..finding
        }
    }

    /// Both runs have the same persist interval of every byte, but for the event numbers, and the
    /// same mean exposure, and their totals differ by the events taken out.
    pub fn compare(&self) {
        let number = |number: usize| usize::from(self.numbers[number]);
        for byte in 0..self.every.window() {
            let interval = self.every.interval(byte).renumbered(number);
            assert_eq!(interval, self.others.interval(byte), "byte {byte}");
        }
        assert_eq!(self.every.exposure(), self.others.exposure());
        let more = |totals: Totals| Totals {
            events: totals.events + self.taken_out,
            found: totals.found + self.holding,
            ..totals
        };
        assert_eq!(self.every.close(), self.others.close().map(more));
    }
}
