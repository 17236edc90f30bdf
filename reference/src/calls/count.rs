//! How often each sort of answer comes.

use super::{Answer, Call, Calls, Entry};
use crate::exposure::Exposure;
use crate::interval::Interval;
use std::collections::{BTreeMap, BTreeSet};
use std::fmt;

/// The sort of an answer; the order is that of the note.
#[derive(Clone, Copy, Debug, PartialEq, Eq, PartialOrd, Ord)]
pub enum Sort {
    Taken,
    /// By the number of the finding's kind.
    Finding(u8),
    NoInterval,
    /// Open, and the line was not written back since the last store.
    Open,
    /// Open, and the line was written back since the last store.
    OpenWrittenBack,
    /// Open, and closed when the byte was asked before.
    OpenAgain,
    Closed,
    Totals,
    /// A mean exposure, without and with a remainder.
    Whole,
    WithRemainder,
    /// Of a closed file.
    Length,
    Refused(u8),
    /// Nothing is printed.
    Silent,
}

impl fmt::Display for Sort {
    fn fmt(&self, f: &mut fmt::Formatter<'_>) -> fmt::Result {
        match self {
            Sort::Taken => write!(f, "taken"),
            Sort::Finding(0) | Sort::NoInterval => write!(f, "none"),
            Sort::Finding(kind) => write!(f, "finding {kind}"),
            Sort::Open => write!(f, "open"),
            Sort::OpenWrittenBack => write!(f, "open and written back"),
            Sort::OpenAgain => write!(f, "open again"),
            Sort::Closed => write!(f, "closed"),
            Sort::Totals => write!(f, "totals"),
            Sort::Whole => write!(f, "remainder 0"),
            Sort::WithRemainder => write!(f, "remainder from 1"),
            Sort::Length => write!(f, "length"),
            Sort::Refused(number) => write!(f, "refused {number}"),
            Sort::Silent => write!(f, "silent"),
        }
    }
}

/// Counts by the name of the call and the sort of its answer.
#[derive(Clone, Debug, Default, PartialEq, Eq)]
pub struct Counts {
    counts: BTreeMap<(&'static str, Sort), usize>,
}

impl Counts {
    pub fn of(calls: &Calls) -> Counts {
        let mut counts = Counts::default();
        for entry in &calls.entries {
            counts.add(entry);
        }
        counts
    }

    fn add(&mut self, entry: &Entry) {
        let mut closed = BTreeSet::new();
        for (&call, answer) in entry.case.calls.iter().zip(&entry.answers) {
            let sort = match (call, sort(answer.as_ref())) {
                (Call::Ask(byte), Sort::Open | Sort::OpenWrittenBack) if closed.contains(&byte) => {
                    Sort::OpenAgain
                }
                (Call::Ask(byte), Sort::Closed) => {
                    closed.insert(byte);
                    Sort::Closed
                }
                (_, sort) => sort,
            };
            *self.counts.entry((name(call), sort)).or_insert(0) += 1;
        }
    }

    /// The count of a sort, for the calls of a name.
    pub fn count(&self, name: &'static str, sort: Sort) -> usize {
        self.counts.get(&(name, sort)).copied().unwrap_or(0)
    }

    /// A line for each name of a call.
    pub fn lines(&self) -> Vec<String> {
        let mut lines: BTreeMap<&str, Vec<String>> = BTreeMap::new();
        for ((name, sort), count) in &self.counts {
            let words = format!("{sort} {count}");
            lines.entry(name).or_default().push(words);
        }
        let line = |(name, words): (&str, Vec<String>)| format!("{name}: {}", words.join(", "));
        lines.into_iter().map(line).collect()
    }
}

fn sort(answer: Option<&Answer>) -> Sort {
    match answer {
        None => Sort::Silent,
        Some(Answer::Taken) => Sort::Taken,
        Some(Answer::Finding(finding)) => Sort::Finding(finding.kind.number()),
        Some(Answer::Interval(interval)) => sort_of_interval(interval),
        Some(Answer::Totals(_)) => Sort::Totals,
        Some(Answer::Exposure(Exposure { remainder: 0, .. })) => Sort::Whole,
        Some(Answer::Exposure(_)) => Sort::WithRemainder,
        Some(Answer::Writer(Ok(None), _)) => Sort::Taken,
        Some(Answer::Writer(Ok(Some(_)), _)) => Sort::Length,
        Some(Answer::Refused(number) | Answer::Writer(Err(number), _)) => Sort::Refused(*number),
    }
}

fn sort_of_interval(interval: &Interval) -> Sort {
    match interval {
        Interval::None => Sort::NoInterval,
        Interval::Open { write_back: 0, .. } => Sort::Open,
        Interval::Open { .. } => Sort::OpenWrittenBack,
        Interval::Closed { .. } => Sort::Closed,
    }
}

fn name(call: Call) -> &'static str {
    match call {
        Call::Give(_) => "event",
        Call::Fresh(_) => "fresh",
        Call::Ask(_) => "ask",
        Call::Close => "close",
        Call::Fences(_) => "fences",
        Call::Exposure => "exposure",
        Call::Area(_) => "area",
        Call::Preamble(..) => "preamble",
        Call::PreambleOfArea(_) => "preamble of area",
        Call::Start(_) => "start",
        Call::Finish => "finish",
        Call::Writer(_) => "writer",
        Call::Write(_) => "write",
    }
}
