//! Calls on single events (a fresh window, an event given, a byte asked, a closing, the mean
//! exposure) and calls of the writer as a file, and the text of their answers.
//!
//! Making them needs no clock: both are the same each time, byte for byte.

mod answer;
mod call;
mod closed;
mod count;
mod drawn;
mod exposures;
mod no_bytes;
mod numbers;
mod shared;
mod writer_drawn;
mod writer_written;
mod writing;
mod written;

pub use answer::{answers, Answer};
pub use call::Call;
pub use closed::Closed;
pub use count::{Counts, Sort};
pub use writing::Change;

use crate::direct::Run;
use crate::event::{Event, Record};
use crate::images::{self, History};
use crate::trace::RECORD;
use std::collections::BTreeMap;
use std::fmt::Write;

/// A fence as it is given without an answer.
const FENCE: Record = Record {
    event: Event::Fence,
    site: 0,
};

/// A fresh window and the calls on it, or an area and the calls of the writer, before they are
/// answered.
#[derive(Clone, Debug, PartialEq, Eq)]
pub struct Case {
    pub group: &'static str,
    /// The first one is a fresh window, and no other is; or the first one is an area, and all are
    /// calls of the writer.
    pub calls: Vec<Call>,
}

impl Case {
    /// Whether the calls are of the writer, and not on a run.
    pub fn is_of_writer(&self) -> bool {
        self.calls.first().is_some_and(|call| call.is_of_writer())
    }
}

/// A case with the answers to its calls.
#[derive(Clone, Debug, PartialEq, Eq)]
pub struct Entry {
    pub case: Case,
    /// One for each call; `None` if nothing is printed for it.
    pub answers: Vec<Option<Answer>>,
    /// Answered by images too, with the same answers. The writer has only one way.
    pub both_ways: bool,
    /// The files closed by the writer, all of them accepted and read back.
    pub closed: Closed,
}

/// The calls and their answers.
#[derive(Clone, Debug, PartialEq, Eq)]
pub struct Calls {
    pub entries: Vec<Entry>,
}

impl Calls {
    /// Makes the calls and answers them.
    pub fn build() -> Result<Calls, String> {
        let mut cases = written::cases();
        cases.extend(drawn::cases());
        cases.extend(drawn::torn_cases());
        cases.extend(exposures::cases());
        cases.extend(drawn::exposure_cases());
        cases.extend(no_bytes::cases());
        cases.extend(drawn::no_bytes_cases());
        cases.extend(shared::cases());
        cases.extend(drawn::shared_cases());
        cases.extend(writer_written::cases());
        cases.extend(writer_drawn::cases());
        let entries = cases.into_iter().map(entry).collect::<Result<_, _>>()?;
        Ok(Calls { entries })
    }

    /// All calls, in order.
    pub fn calls(&self) -> impl Iterator<Item = Call> + '_ {
        let cases = self.entries.iter().map(|entry| &entry.case);
        cases.flat_map(|case| case.calls.iter().copied())
    }

    /// The counts, as lines: runs by group, calls, and answers by sort.
    pub fn note(&self) -> Vec<String> {
        let mut groups: BTreeMap<&str, usize> = BTreeMap::new();
        for entry in &self.entries {
            *groups.entry(entry.case.group).or_insert(0) += 1;
        }
        let runs = groups
            .iter()
            .map(|(group, count)| format!("{group}: {count} runs"));
        let mut lines: Vec<String> = runs.collect();
        lines.extend(Counts::of(self).lines());
        let both = self.entries.iter().filter(|entry| entry.both_ways).count();
        let (runs, calls) = (self.entries.len(), self.calls().count());
        let of_writer = self.calls().filter(|call| call.is_of_writer()).count();
        let Closed { files, by_images } = self.closed();
        lines.push(format!(
            "{of_writer} calls of the writer, {files} closed files judged, \
             {by_images} of them by images too"
        ));
        lines.push(format!(
            "{calls} calls in {runs} runs, {both} of them answered both ways"
        ));
        lines
    }

    /// The files closed by the writer.
    pub fn closed(&self) -> Closed {
        let all = self.entries.iter().map(|entry| entry.closed);
        all.fold(Closed::default(), |sum, closed| Closed {
            files: sum.files + closed.files,
            by_images: sum.by_images + closed.by_images,
        })
    }

    /// The calls file.
    pub fn to_bytes(&self) -> Vec<u8> {
        self.calls().flat_map(Call::to_bytes).collect()
    }

    /// The text of the answers, in words.
    pub fn text(&self) -> String {
        self.entries.iter().map(Entry::text).collect()
    }

    /// The same in numbers, as the program prints it.
    pub fn numbers(&self) -> String {
        self.entries.iter().map(Entry::numbers).collect()
    }
}

/// The calls of a file; `None` if it is no calls file.
pub fn read(bytes: &[u8]) -> Option<Vec<Call>> {
    let calls = bytes.chunks(RECORD).map(|bytes| {
        let bytes = bytes.try_into().ok()?;
        Call::from_bytes(bytes)
    });
    calls.collect()
}

impl Entry {
    /// A line for each answer, in words.
    pub fn text(&self) -> String {
        self.lines(|call, answer| format!("{call}: {answer}"))
    }

    /// The same in numbers.
    pub fn numbers(&self) -> String {
        self.lines(numbers::line)
    }

    fn lines(&self, line: impl Fn(Call, &Answer) -> String) -> String {
        let mut text = String::new();
        for (&call, answer) in self.case.calls.iter().zip(&self.answers) {
            if let Some(answer) = answer {
                writeln!(text, "{}", line(call, answer)).expect("a string takes text");
            }
        }
        text
    }
}

fn entry(case: Case) -> Result<Entry, String> {
    let answers = answers::<Run>(&case.calls);
    let of_writer = case.is_of_writer();
    let both_ways = !of_writer && small_enough(&case.calls, &answers);
    if both_ways {
        compare(&case, &answers)?;
    }
    let closed = if of_writer {
        closed::check(&case)?
    } else {
        Closed::default()
    };
    Ok(Entry {
        case,
        answers,
        both_ways,
        closed,
    })
}

/// Compares the answers with those by images.
fn compare(case: &Case, direct: &[Option<Answer>]) -> Result<(), String> {
    let enumerated = answers::<History>(&case.calls);
    let words = |answer: &Option<Answer>| answer.as_ref().map_or(String::new(), Answer::to_string);
    match (0..direct.len()).find(|&at| direct[at] != enumerated[at]) {
        None => Ok(()),
        Some(at) => Err(format!(
            "{}: the two ways differ at call {at}, {}: direct `{}`, by images `{}`",
            case.group,
            case.calls[at],
            words(&direct[at]),
            words(&enumerated[at])
        )),
    }
}

/// Whether answering by images is quick, see [`images::small_enough_events`].
fn small_enough(calls: &[Call], answers: &[Option<Answer>]) -> bool {
    let mut lines = 1;
    let mut accepted = Vec::new();
    for (&call, answer) in calls.iter().zip(answers) {
        match (call, answer) {
            (Call::Fresh(asked), Some(Answer::Taken)) => lines = asked,
            (Call::Give(record), Some(Answer::Finding(_))) => accepted.push(record),
            (Call::Fences(count), _) => accepted.extend(vec![FENCE; usize::from(count)]),
            _ => {}
        }
    }
    images::small_enough_events(lines, &accepted)
}
