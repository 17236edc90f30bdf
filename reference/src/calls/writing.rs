//! What the calls of the writer work on, and their answers.

use super::{Answer, Call};
use crate::corpus::AREA_BEFORE;
use crate::writer::{self, Writer};
use std::fmt;

/// The bytes of an area from the first to the last that a call changed, as they are after it.
#[derive(Clone, Debug, PartialEq, Eq)]
pub struct Change {
    pub first: usize,
    pub bytes: Vec<u8>,
}

impl Change {
    /// The most bytes that are printed one by one.
    const MOST_PRINTED: usize = 16;

    /// What differs between two areas of the same length; `None` if nothing does.
    fn between(before: &[u8], after: &[u8]) -> Option<Change> {
        let differ = |&at: &usize| before[at] != after[at];
        let first = (0..after.len()).find(differ)?;
        let last = (0..after.len()).rfind(differ)?;
        Some(Change {
            first,
            bytes: after[first..=last].to_vec(),
        })
    }

    /// A number that depends on every byte and its place.
    fn sum(&self) -> u32 {
        let add = |sum, &byte| (31 * sum + u32::from(byte)) % 65_536;
        self.bytes.iter().fold(0, add)
    }
}

impl fmt::Display for Change {
    fn fmt(&self, f: &mut fmt::Formatter<'_>) -> fmt::Result {
        let first = self.first;
        if self.bytes.len() > Change::MOST_PRINTED {
            let last = first + self.bytes.len() - 1;
            return write!(f, "at {first} to {last} sum {}", self.sum());
        }
        write!(f, "at {first}:")?;
        self.bytes.iter().try_for_each(|byte| write!(f, " {byte}"))
    }
}

/// The area, the preamble of the starts that follow, and the writer.
#[derive(Clone, Debug, PartialEq, Eq)]
pub(super) struct Writing {
    pub area: Vec<u8>,
    pub preamble: Vec<u8>,
    pub writer: Writer,
}

impl Writing {
    /// As it is before any call of the writer.
    pub fn new() -> Writing {
        Writing {
            area: Vec::new(),
            preamble: Vec::new(),
            writer: Writer {
                lines: 1,
                offset: 0,
                count: 0,
                open: 0,
            },
        }
    }

    /// Makes a call of the writer. `None` if nothing is printed for it.
    pub fn answer(&mut self, call: Call) -> Option<Answer> {
        match call {
            Call::Area(length) => self.area = vec![AREA_BEFORE; length as usize],
            Call::Preamble(length, from) => {
                let byte = |at: u32| from.wrapping_add((7 * at) as u8);
                self.preamble = (0..length).map(byte).collect();
            }
            Call::PreambleOfArea(length) => {
                let bytes = self.area.get(..length as usize);
                self.preamble = bytes.expect("the area has so many bytes").to_vec();
            }
            Call::Writer(writer) => self.writer = writer,
            _ => return Some(self.answer_changing(call)),
        }
        None
    }

    /// Makes a call that may change the area.
    fn answer_changing(&mut self, call: Call) -> Answer {
        let before = self.area.clone();
        let area = &mut self.area;
        let length = match call {
            Call::Start(lines) => writer::start(area, &self.preamble, lines).map(|writer| {
                self.writer = writer;
                None
            }),
            Call::Write(record) => writer::event(area, &mut self.writer, &record).map(|()| None),
            Call::Finish => writer::close(area, &self.writer).map(Some),
            _ => panic!("not a call of the writer: {call}"),
        };
        Answer::Writer(length, Change::between(&before, &self.area))
    }
}
