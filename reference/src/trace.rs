//! The trace file: its trailer, its records, and refusals 1 to 7 and 9.

use crate::event::{Event, Range, Record, LINE, MAX_LINES};

/// Bytes of the trailer.
pub const TRAILER: usize = 16;
/// Bytes of a record, and of a finding.
pub const RECORD: usize = 12;
/// The longest trace.
pub const MAX_TRACE: usize = 65_536;
/// The four bytes that a trailer starts with.
pub const MARK: [u8; 4] = *b"PTRA";

/// What a good trailer says, and the records that it points to.
#[derive(Clone, Copy, Debug, PartialEq, Eq)]
pub struct Body<'a> {
    pub lines: u16,
    pub free: &'a [u8],
    pub records: &'a [u8],
}

impl<'a> Body<'a> {
    pub fn count(&self) -> usize {
        self.records.len() / RECORD
    }

    pub fn record_bytes(&self) -> impl Iterator<Item = &'a [u8; RECORD]> {
        self.records
            .chunks_exact(RECORD)
            .map(|bytes| bytes.try_into().expect("a chunk has the bytes of a record"))
    }
}

/// Reads the trailer. Refusals 1 to 5, in this order.
pub fn open(trace: &[u8]) -> Result<Body<'_>, u8> {
    if trace.len() < TRAILER {
        return Err(1);
    }
    if trace.len() > MAX_TRACE {
        return Err(2);
    }
    let (front, trailer) = trace.split_at(trace.len() - TRAILER);
    if trailer[..4] != MARK {
        return Err(3);
    }
    let offset = u64::from(u32_at(trailer, 4));
    let count = u64::from(u32_at(trailer, 8));
    let lines = u16_at(trailer, 12);
    let zero = u16_at(trailer, 14);
    if !(1..=MAX_LINES).contains(&lines) || zero != 0 {
        return Err(4);
    }
    // Both numbers have 32 bits: the sum needs fewer than 37, and cannot wrap here.
    if offset + RECORD as u64 * count + TRAILER as u64 != trace.len() as u64 {
        return Err(5);
    }
    let (free, records) = front.split_at(offset as usize);
    Ok(Body {
        lines,
        free,
        records,
    })
}

/// Reads a record. Refusals 6, 7 and 9, in this order.
pub fn decode(bytes: &[u8; RECORD], lines: u16) -> Result<Record, u8> {
    let record = read(bytes)?;
    record.event.check_ranges(usize::from(lines) * LINE)?;
    Ok(record)
}

/// Reads a record whose ranges may run past the window. Refusals 6 and 7, in this order.
pub fn read(bytes: &[u8; RECORD]) -> Result<Record, u8> {
    let kind = bytes[0];
    let a = Range::new(u16_at(bytes, 2), u16_at(bytes, 4));
    let b = Range::new(u16_at(bytes, 6), u16_at(bytes, 8));
    let site = site_of(bytes);
    let event = match kind {
        Event::STORE => Event::Store(a),
        Event::WRITE_BACK => Event::WriteBack(a),
        Event::FENCE => Event::Fence,
        Event::BEGIN => Event::Begin,
        Event::LOG => Event::Log(a),
        Event::END => Event::End,
        Event::PERSISTED => Event::Persisted(a),
        Event::ORDERED => Event::Ordered(a, b),
        _ => return Err(6),
    };
    let nothing = Range::new(0, 0);
    let a_set_but_lacking = event.range_a().is_none() && a != nothing;
    let b_set_but_lacking = event.range_b().is_none() && b != nothing;
    if bytes[1] != 0 || a_set_but_lacking || b_set_but_lacking {
        return Err(7);
    }
    Ok(Record { event, site })
}

/// The site of a record, of whichever kind.
pub fn site_of(bytes: &[u8; RECORD]) -> u16 {
    u16_at(bytes, 10)
}

/// The twelve bytes of a record. Limits are not checked.
pub fn encode(record: &Record) -> [u8; RECORD] {
    let nothing = Range::new(0, 0);
    let a = record.event.range_a().unwrap_or(nothing);
    let b = record.event.range_b().unwrap_or(nothing);
    raw_record(record.event.kind(), 0, a, b, record.site)
}

/// A record from its fields as they are, damaged ones included.
pub fn raw_record(kind: u8, zero: u8, a: Range, b: Range, site: u16) -> [u8; RECORD] {
    let mut bytes = [0; RECORD];
    bytes[0] = kind;
    bytes[1] = zero;
    let fields = [a.address, a.length, b.address, b.length, site];
    for (place, field) in bytes[2..].chunks_exact_mut(2).zip(fields) {
        place.copy_from_slice(&field.to_le_bytes());
    }
    bytes
}

/// A trailer from its fields as they are, damaged ones included.
pub fn raw_trailer(mark: [u8; 4], offset: u32, count: u32, lines: u16, zero: u16) -> [u8; TRAILER] {
    let mut bytes = [0; TRAILER];
    bytes[..4].copy_from_slice(&mark);
    bytes[4..8].copy_from_slice(&offset.to_le_bytes());
    bytes[8..12].copy_from_slice(&count.to_le_bytes());
    bytes[12..14].copy_from_slice(&lines.to_le_bytes());
    bytes[14..].copy_from_slice(&zero.to_le_bytes());
    bytes
}

/// A trace of records that are already bytes. Limits are not checked.
pub fn assemble(lines: u16, free: &[u8], records: &[[u8; RECORD]]) -> Vec<u8> {
    let offset = u32::try_from(free.len()).expect("fewer than 2^32 free bytes");
    let count = u32::try_from(records.len()).expect("fewer than 2^32 records");
    let mut trace = Vec::with_capacity(free.len() + RECORD * records.len() + TRAILER);
    trace.extend_from_slice(free);
    trace.extend(records.iter().flatten());
    trace.extend_from_slice(&raw_trailer(MARK, offset, count, lines, 0));
    trace
}

/// A trace of records. Limits are not checked.
pub fn write(lines: u16, free: &[u8], records: &[Record]) -> Vec<u8> {
    let records: Vec<_> = records.iter().map(encode).collect();
    assemble(lines, free, &records)
}

fn u16_at(bytes: &[u8], at: usize) -> u16 {
    u16::from_le_bytes([bytes[at], bytes[at + 1]])
}

fn u32_at(bytes: &[u8], at: usize) -> u32 {
    u32::from_le_bytes([bytes[at], bytes[at + 1], bytes[at + 2], bytes[at + 3]])
}
