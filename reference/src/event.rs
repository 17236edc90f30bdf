//! The window, ranges of bytes, and the eight kinds of event.

use std::fmt;

/// Bytes in a line.
pub const LINE: usize = 64;
/// Bytes in a word: a store may be torn between the words of a line, not inside one.
pub const WORD: usize = 8;
/// The largest number of lines in a window.
pub const MAX_LINES: u16 = 64;
/// The largest number of bytes in a window.
pub const MAX_WINDOW: usize = LINE * MAX_LINES as usize;
/// The largest number of events in a run.
pub const MAX_EVENTS: usize = 65_535;
/// The largest number of transactions open at once.
pub const MAX_DEPTH: usize = 8;

/// Bytes from `address` on, `length` of them. A length of 0 is no byte and no line.
#[derive(Clone, Copy, Debug, PartialEq, Eq, Hash)]
pub struct Range {
    pub address: u16,
    pub length: u16,
}

impl Range {
    pub const fn new(address: u16, length: u16) -> Range {
        Range { address, length }
    }

    /// The first address behind the range.
    pub fn end(self) -> usize {
        usize::from(self.address) + usize::from(self.length)
    }

    /// The addresses of the range, lowest first.
    pub fn bytes(self) -> std::ops::Range<usize> {
        usize::from(self.address)..self.end()
    }

    pub fn has_bytes(self) -> bool {
        self.length > 0
    }

    pub fn covers(self, byte: usize) -> bool {
        self.bytes().contains(&byte)
    }

    /// The lines that hold a byte of the range, lowest first.
    pub fn lines(self) -> std::ops::Range<usize> {
        if !self.has_bytes() {
            return 0..0;
        }
        usize::from(self.address) / LINE..(self.end() - 1) / LINE + 1
    }

    pub fn touches(self, line: usize) -> bool {
        self.lines().contains(&line)
    }
}

/// Address/length.
impl fmt::Display for Range {
    fn fmt(&self, f: &mut fmt::Formatter<'_>) -> fmt::Result {
        write!(f, "{}/{}", self.address, self.length)
    }
}

#[derive(Clone, Copy, Debug, PartialEq, Eq, Hash)]
pub enum Event {
    Store(Range),
    WriteBack(Range),
    Fence,
    Begin,
    Log(Range),
    End,
    Persisted(Range),
    /// The first range is to be durable before the second.
    Ordered(Range, Range),
}

impl Event {
    pub const STORE: u8 = 1;
    pub const WRITE_BACK: u8 = 2;
    pub const FENCE: u8 = 3;
    pub const BEGIN: u8 = 4;
    pub const LOG: u8 = 5;
    pub const END: u8 = 6;
    pub const PERSISTED: u8 = 7;
    pub const ORDERED: u8 = 8;

    /// The number of the kind in a record.
    pub fn kind(self) -> u8 {
        match self {
            Event::Store(_) => Event::STORE,
            Event::WriteBack(_) => Event::WRITE_BACK,
            Event::Fence => Event::FENCE,
            Event::Begin => Event::BEGIN,
            Event::Log(_) => Event::LOG,
            Event::End => Event::END,
            Event::Persisted(_) => Event::PERSISTED,
            Event::Ordered(..) => Event::ORDERED,
        }
    }

    /// Range A, if the kind has one.
    pub fn range_a(self) -> Option<Range> {
        match self {
            Event::Store(a) | Event::WriteBack(a) | Event::Log(a) | Event::Persisted(a) => Some(a),
            Event::Ordered(a, _) => Some(a),
            Event::Fence | Event::Begin | Event::End => None,
        }
    }

    /// Range B, if the kind has one.
    pub fn range_b(self) -> Option<Range> {
        match self {
            Event::Ordered(_, b) => Some(b),
            _ => None,
        }
    }

    /// Refusal 9, for a window of so many bytes. A range of no bytes may start just behind the
    /// window.
    pub fn check_ranges(self, window: usize) -> Result<(), u8> {
        let mut used = [self.range_a(), self.range_b()].into_iter().flatten();
        if used.any(|range| range.end() > window) {
            return Err(9);
        }
        Ok(())
    }
}

/// The event's name and its ranges.
impl fmt::Display for Event {
    fn fmt(&self, f: &mut fmt::Formatter<'_>) -> fmt::Result {
        match self {
            Event::Store(a) => write!(f, "store {a}"),
            Event::WriteBack(a) => write!(f, "write-back {a}"),
            Event::Fence => write!(f, "fence"),
            Event::Begin => write!(f, "begin"),
            Event::Log(a) => write!(f, "log {a}"),
            Event::End => write!(f, "end"),
            Event::Persisted(a) => write!(f, "persisted {a}"),
            Event::Ordered(a, b) => write!(f, "ordered {a} before {b}"),
        }
    }
}

/// An event with the site that the tracer gave it.
#[derive(Clone, Copy, Debug, PartialEq, Eq, Hash)]
pub struct Record {
    pub event: Event,
    pub site: u16,
}
