//! A case: an emptied findings area and the calls on it, made one after another.

use super::call::{Call, MOST_ROOM};
use crate::read_back;
use crate::trace::RECORD;

#[derive(Clone, Debug, PartialEq, Eq)]
pub struct Case {
    pub group: &'static str,
    /// The first one empties the findings area.
    pub calls: Vec<Call>,
    /// The findings area as the calls leave it.
    findings: Vec<u8>,
}

/// The five fields of a finding: lost, kept, moment, store, site.
pub(super) type Fields = [u16; 5];

impl Case {
    pub(super) fn new(group: &'static str) -> Case {
        let empty = Case {
            group,
            calls: Vec::new(),
            findings: Vec::new(),
        };
        empty.call(Call::Length(0))
    }

    pub(super) fn call(mut self, call: Call) -> Case {
        let changed = call.change(&mut self.findings);
        changed.expect("a case keeps within the bounds");
        self.calls.push(call);
        self
    }

    /// Puts findings of one kind, each field a step above that of the finding before.
    pub(super) fn put(self, kind: u8, count: usize, step: u16, fields: Fields) -> Case {
        self.call(Call::Put {
            finding: finding(kind, fields),
            count: count as u32,
            step,
        })
    }

    /// Puts findings of one kind whose fields follow from their number.
    pub(super) fn some(self, kind: u8, count: usize) -> Case {
        let from = (self.count() + 1) as u16;
        let fields = [5, 17, 1, 3, 100].map(|factor: u16| factor.wrapping_mul(from));
        self.put(kind, count, 7, fields)
    }

    /// Puts so many findings of the kinds 1 to 8 in turn, up to `run` of each at a time.
    pub(super) fn shown(mut self, count: usize, run: usize) -> Case {
        let mut left = count;
        for kind in (1..=8).cycle() {
            if left == 0 {
                break;
            }
            self = self.some(kind, run.min(left));
            left -= run.min(left);
        }
        self
    }

    /// Sets the kind of the finding at a position from 1.
    pub(super) fn kind(self, position: usize, byte: u8) -> Case {
        let place = (RECORD * (position - 1)) as u32;
        self.call(Call::Set { place, byte })
    }

    /// Sets the zero byte of the finding at a position from 1.
    pub(super) fn zero(self, position: usize, byte: u8) -> Case {
        let place = (RECORD * (position - 1) + 1) as u32;
        self.call(Call::Set { place, byte })
    }

    pub(super) fn kind_at(&self, position: usize) -> u8 {
        self.findings[RECORD * (position - 1)]
    }

    /// Cuts the findings area, or puts zero bytes behind it.
    pub(super) fn length(self, length: usize) -> Case {
        self.call(Call::Length(length as u32))
    }

    /// The bytes that the pages need, at most those of the longest page area.
    pub(super) fn needed(&self) -> usize {
        read_back::length(read_back::shown(&self.findings)).min(MOST_ROOM)
    }

    /// The whole findings in the area.
    pub(super) fn count(&self) -> usize {
        self.findings.len() / RECORD
    }

    /// Lays pages out in a page area of so many bytes.
    pub(super) fn pages(self, room: usize) -> Case {
        self.call(Call::Pages(room as u32))
    }

    /// Lays pages out in a page area that is just long enough.
    pub(super) fn exact(self) -> Case {
        let needed = self.needed();
        self.pages(needed)
    }

    /// The same, and prints their text.
    pub(super) fn text(self) -> Case {
        let needed = self.needed();
        self.text_in(needed)
    }

    /// Lays pages out in a page area of so many bytes, and prints their text.
    pub(super) fn text_in(self, room: usize) -> Case {
        self.call(Call::Text(room as u32))
    }
}

/// The bytes of a finding, of any kind.
fn finding(kind: u8, fields: Fields) -> [u8; RECORD] {
    let mut bytes = [0; RECORD];
    bytes[0] = kind;
    for (place, field) in bytes[2..].chunks_exact_mut(2).zip(fields) {
        place.copy_from_slice(&field.to_le_bytes());
    }
    bytes
}
