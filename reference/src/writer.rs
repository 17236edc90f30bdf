//! The writer: from a preamble, a line count and events given one after another it fills an area
//! that the caller lends with a trace file. Closing it lays the trailer behind the last record.
//!
//! A call lays down its preamble, record or trailer whole, or is refused and writes nothing. No
//! other byte of the area changes.

use crate::event::{Event, Range, MAX_DEPTH, MAX_EVENTS, MAX_LINES};
use crate::trace::{self, MARK, MAX_TRACE, RECORD, TRAILER};

/// A file that is being written. Any numbers are allowed, those that no start hands over too.
#[derive(Clone, Copy, Debug, PartialEq, Eq, Hash)]
pub struct Writer {
    pub lines: u16,
    /// Where the first record starts: the length of the preamble.
    pub offset: u32,
    /// Records so far.
    pub count: u32,
    /// Transactions open.
    pub open: u16,
}

/// Starts a file with the preamble at the area's start. Refusals 4, 2 and 15, in this order.
pub fn start(area: &mut [u8], preamble: &[u8], lines: u16) -> Result<Writer, u8> {
    if !(1..=MAX_LINES).contains(&lines) {
        return Err(4);
    }
    let offset = u32::try_from(preamble.len()).map_err(|_| 2)?;
    let writer = Writer {
        lines,
        offset,
        count: 0,
        open: 0,
    };
    if writer.length(0) > MAX_TRACE as u64 {
        return Err(2);
    }
    lay(area, 0, preamble)?;
    Ok(writer)
}

/// Gives the event of a record's bytes. Refusals 2, 6, 7, 9, 18, 10 to 12 and 15, in this order.
pub fn event(area: &mut [u8], writer: &mut Writer, record: &[u8; RECORD]) -> Result<(), u8> {
    if writer.length(u64::from(writer.count) + 1) > MAX_TRACE as u64 {
        return Err(2);
    }
    let open = writer.open_after(record)?;
    lay(area, writer.records_end(), record)?;
    writer.count += 1;
    writer.open = open;
    Ok(())
}

/// Closes the file and gives its length from the area's start. Refusals 13 and 15, in this order.
/// The writer may go on: the next record takes the trailer's place.
pub fn close(area: &mut [u8], writer: &Writer) -> Result<usize, u8> {
    if writer.open > 0 {
        return Err(13);
    }
    let trailer = trace::raw_trailer(MARK, writer.offset, writer.count, writer.lines, 0);
    lay(area, writer.records_end(), &trailer)
}

impl Writer {
    /// The length of the file with so many records and its trailer. The offset and the count have
    /// 32 bits: the sum needs fewer than 37, and cannot wrap.
    fn length(&self, count: u64) -> u64 {
        u64::from(self.offset) + RECORD as u64 * count + TRAILER as u64
    }

    /// The place behind the last record.
    fn records_end(&self) -> u64 {
        self.length(u64::from(self.count)) - TRAILER as u64
    }

    /// The transactions open after the event of a record. Refusals 6, 7, 9, 18 and 10 to 12, in this
    /// order.
    fn open_after(&self, record: &[u8; RECORD]) -> Result<u16, u8> {
        let record = trace::decode(record, self.lines)?;
        if matches!(record.event, Event::Ordered(a, b) if overlap(a, b)) {
            return Err(18);
        }
        // So many records are past the longest file: an event gets 2 before.
        if self.count as usize >= MAX_EVENTS {
            return Err(10);
        }
        match record.event {
            Event::Log(_) | Event::End if self.open == 0 => Err(11),
            Event::Begin if usize::from(self.open) >= MAX_DEPTH => Err(12),
            Event::Begin => Ok(self.open + 1),
            Event::End => Ok(self.open - 1),
            _ => Ok(self.open),
        }
    }
}

/// The range that starts first runs into the other one, which has bytes.
fn overlap(a: Range, b: Range) -> bool {
    let (first, second) = if a.address <= b.address {
        (a, b)
    } else {
        (b, a)
    };
    second.has_bytes() && first.end() > usize::from(second.address)
}

/// Lays bytes down at a place of the area, and gives the place behind them. Refusal 15.
fn lay(area: &mut [u8], at: u64, bytes: &[u8]) -> Result<usize, u8> {
    let end = at + bytes.len() as u64;
    if end > area.len() as u64 {
        return Err(15);
    }
    // Both places are in the area, so they fit.
    let (at, end) = (at as usize, end as usize);
    area[at..end].copy_from_slice(bytes);
    Ok(end)
}
