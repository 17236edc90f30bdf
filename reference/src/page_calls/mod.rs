//! Calls of the pages as a file, and the text of their answers.
//!
//! Making them needs no clock: both are the same each time, byte for byte.

mod call;
mod case;
mod drawn;
mod written;

pub use call::{Call, CALL, MOST_FINDINGS, MOST_ROOM};
pub use case::Case;

use crate::pages::{self, Refused};
use crate::read_back;
use std::collections::BTreeMap;

/// Every byte of a page area before pages are laid out in it.
pub const AREA_BEFORE: u8 = 0xa5;

/// What is printed for a call that lays pages out.
#[derive(Clone, Debug, PartialEq, Eq)]
pub struct Answer {
    /// The bytes of the findings area and of the page area.
    pub findings: usize,
    pub room: usize,
    /// The length of the pages.
    pub result: Result<usize, Refused>,
    /// Of all bytes of the page area after the call.
    pub sum: u16,
    /// The pages, if their text is printed.
    pub text: Vec<u8>,
}

/// A case with the answers to its calls.
#[derive(Clone, Debug, PartialEq, Eq)]
pub struct Entry {
    pub case: Case,
    /// One for each call that lays pages out.
    pub answers: Vec<Answer>,
}

/// The calls and their answers.
#[derive(Clone, Debug, PartialEq, Eq)]
pub struct PageCalls {
    pub entries: Vec<Entry>,
}

impl PageCalls {
    /// Makes the calls and answers them. Every answer is checked by reading the pages back.
    pub fn build() -> Result<PageCalls, String> {
        let mut cases = written::cases();
        cases.extend(drawn::cases());
        let entries = cases.into_iter().map(entry).collect::<Result<_, _>>()?;
        Ok(PageCalls { entries })
    }

    /// All calls, in order.
    pub fn calls(&self) -> impl Iterator<Item = Call> + '_ {
        let cases = self.entries.iter().map(|entry| &entry.case);
        cases.flat_map(|case| case.calls.iter().copied())
    }

    /// All answers, in order.
    pub fn answers(&self) -> impl Iterator<Item = &Answer> {
        self.entries.iter().flat_map(|entry| &entry.answers)
    }

    /// The calls file.
    pub fn to_bytes(&self) -> Vec<u8> {
        self.calls().flat_map(Call::to_bytes).collect()
    }

    /// The text of the answers.
    pub fn text(&self) -> Vec<u8> {
        self.answers().flat_map(Answer::to_bytes).collect()
    }

    /// The counts, as lines: each group, each sort of answer, and all.
    pub fn note(&self) -> Vec<String> {
        let mut groups: BTreeMap<&str, [usize; 3]> = BTreeMap::new();
        for Entry { case, answers } in &self.entries {
            let group = groups.entry(case.group).or_default();
            let counts = [1, case.calls.len(), answers.len()];
            *group = std::array::from_fn(|at| group[at] + counts[at]);
        }
        let mut lines: Vec<String> = groups
            .iter()
            .map(|(group, [cases, calls, answers])| {
                format!("{group}: {cases} cases, {calls} calls, {answers} answers")
            })
            .collect();
        lines.push(self.answer_line());
        let texts = self.answers().map(|answer| answer.text.len());
        let laid = self.answers().filter_map(|answer| answer.result.ok());
        lines.push(format!(
            "{} bytes of pages laid out, {} of them printed",
            laid.sum::<usize>(),
            texts.sum::<usize>()
        ));
        let (calls, cases) = (self.calls().count(), self.entries.len());
        let answers = self.answers().count();
        lines.push(format!(
            "{calls} calls in {cases} cases, {answers} answers, all of them read back"
        ));
        lines
    }

    fn answer_line(&self) -> String {
        let mut sorts: BTreeMap<u8, usize> = BTreeMap::new();
        for answer in self.answers() {
            let number = answer.result.err().map_or(0, |refused| refused.number);
            *sorts.entry(number).or_default() += 1;
        }
        let words = sorts.iter().map(|(number, count)| match number {
            0 => format!("length {count}"),
            _ => format!("refused {number} {count}"),
        });
        format!("answers: {}", words.collect::<Vec<_>>().join(", "))
    }
}

impl Answer {
    /// The line, and the text of the pages if it is printed.
    pub fn to_bytes(&self) -> Vec<u8> {
        let Answer { findings, room, .. } = self;
        let answer = match self.result {
            Ok(length) => length.to_string(),
            Err(Refused { number, position }) => format!("refused {number} at {position}"),
        };
        let sum = self.sum;
        let line = format!("pages of {findings} bytes in {room}: {answer} sum {sum}\n");
        [line.as_bytes(), &self.text].concat()
    }
}

/// The calls of a file; `None` if it is no file of calls.
pub fn read(bytes: &[u8]) -> Option<Vec<Call>> {
    let call = |bytes: &[u8]| Call::from_bytes(bytes.try_into().ok()?);
    bytes.chunks(CALL).map(call).collect()
}

/// The answers to calls, from an empty findings area on.
pub fn answers(calls: &[Call]) -> Result<Vec<Answer>, String> {
    let mut findings = Vec::new();
    let mut answers = Vec::new();
    for call in calls {
        call.change(&mut findings)?;
        if let Some(room) = call.room() {
            answers.push(answer(&findings, room, matches!(call, Call::Text(_)))?);
        }
    }
    Ok(answers)
}

fn entry(case: Case) -> Result<Entry, String> {
    let answers = answers(&case.calls).map_err(|problem| format!("{}: {problem}", case.group))?;
    Ok(Entry { case, answers })
}

/// Lays pages out and reads them back.
fn answer(findings: &[u8], room: usize, printed: bool) -> Result<Answer, String> {
    let before = vec![AREA_BEFORE; room];
    let mut area = before.clone();
    let result = pages::write(findings, &mut area);
    read_back::check(findings, &before, result, &area)?;
    let text = match result {
        Ok(length) if printed => area[..length].to_vec(),
        _ => Vec::new(),
    };
    Ok(Answer {
        findings: findings.len(),
        room,
        result,
        sum: sum(&area),
        text,
    })
}

/// The number that comes from 0 by x = (31 × x + byte) mod 65,536, over the bytes in order.
fn sum(bytes: &[u8]) -> u16 {
    let add = |x: u16, &byte: &u8| x.wrapping_mul(31).wrapping_add(u16::from(byte));
    bytes.iter().fold(0, add)
}
