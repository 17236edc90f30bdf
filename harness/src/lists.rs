//! Random lists of calls to a writer.

use crate::differential::bytes;
use crate::writer::Call;
use crate::{no_bytes, shared};
use reference::event::{Event, Range, LINE, MAX_LINES};
use reference::random::{self, Mix, Random, Shape};
use reference::trace::{self, raw_record, MAX_TRACE, RECORD, TRAILER};

/// The most records in a trace.
const MAX_RECORDS: usize = (MAX_TRACE - TRAILER) / RECORD;

/// A list of calls, and the writer's numbers before the first call.
pub fn drawn(random: &mut Random) -> (Vec<Call>, [u32; 4]) {
    let plan = plan(random);
    let calls = calls(random, &plan);
    (calls, any_numbers(random, plan.shape.lines))
}

/// What a list is to have.
struct Plan {
    preamble: usize,
    shape: Shape,
    /// One event in so many is followed by a closing.
    closings: usize,
}

/// Mostly short lists; some bring the file near the longest, by the preamble or by their records.
fn plan(random: &mut Random) -> Plan {
    let shape = match random.below(2) {
        0 => random::small_shape(random),
        _ => random::any_shape(random),
    };
    let (preamble, events, closings) = match random.below(1_000) {
        0 => (random.below(RECORD), MAX_RECORDS - random.below(3), 1_000),
        1..=20 => {
            let records = random.below(shape.events + 2);
            let left = RECORD * records + random.below(RECORD);
            (MAX_TRACE - TRAILER - left, shape.events, 6)
        }
        21..=30 => (MAX_TRACE - TRAILER - 1 + random.below(4), shape.events, 6),
        31..=400 => (random.below(40), shape.events, 6),
        _ => (0, shape.events, 6),
    };
    let long = events > shape.events;
    let mix = if long { Mix::PLAIN } else { shape.mix };
    let longest = if long { 16 } else { shape.longest };
    let shape = Shape {
        events,
        mix,
        longest,
        ..shape
    };
    Plan {
        preamble,
        shape,
        closings,
    }
}

/// A start, events with refused ones, ones of no bytes and ones with ranges of `shared` among them, and closings. In
/// some lists the first start is refused, and in some no start is given.
fn calls(random: &mut Random, plan: &Plan) -> Vec<Call> {
    let mut calls = Vec::new();
    if random.chance(1, 10) {
        calls.push(faulty_start(random, plan));
    }
    if random.chance(9, 10) {
        calls.push(start(random, plan.preamble, plan.shape.lines));
    }
    let mut of_16 = || random.pick(&[0, 1, 4]);
    let (faults, empty, beside) = (of_16(), of_16(), of_16());
    let window = window(&plan.shape);
    for record in random::events(random, &plan.shape) {
        if random.chance(faults, 16) {
            calls.extend(faulty(random, &plan.shape).map(Call::Event));
        }
        let mut record = trace::encode(&record);
        if random.chance(empty, 16) {
            no_bytes::put(random, &mut record, |random| {
                no_bytes::inside(random, window)
            });
        }
        if random.chance(beside, 16) {
            shared::put(random, &mut record, window, shared::beside);
        }
        calls.push(Call::Event(record));
        if random.chance(1, plan.closings) {
            calls.extend(vec![Call::Close; 1 + random.below(2)]);
        }
        if random.chance(1, 400) && plan.closings < 100 {
            calls.push(start(random, plan.preamble, plan.shape.lines));
        }
    }
    calls.push(Call::Close);
    calls
}

/// The bytes of the window.
fn window(shape: &Shape) -> usize {
    usize::from(shape.lines) * LINE
}

fn start(random: &mut Random, preamble: usize, lines: u16) -> Call {
    let preamble = bytes(random, preamble);
    Call::Start { preamble, lines }
}

/// A start with bad lines, a preamble longer than planned, or both.
fn faulty_start(random: &mut Random, plan: &Plan) -> Call {
    let bad_lines = [0, MAX_LINES + 1, 255, 256, 257, u16::MAX];
    let lines = match random.below(2) {
        0 => plan.shape.lines,
        _ => random.pick(&bad_lines),
    };
    let preamble = match random.below(4) {
        0 => MAX_TRACE - TRAILER + 1 + random.below(3),
        1 => plan.preamble + random.below(2_000),
        _ => plan.preamble,
    };
    start(random, preamble, lines)
}

/// Records that are refused at most places: one, or many begins.
fn faulty(random: &mut Random, shape: &Shape) -> impl Iterator<Item = [u8; RECORD]> {
    let kind = 1 + random.below(8) as u8;
    let mut record = good(random, shape, kind);
    let mut times = 1;
    match random.below(11) {
        0 => record[0] = random.pick(&[0, 9, 10, 128, 255]),
        1 => set_fields(random, &mut record, 1),
        2 => set_fields(random, &mut record, 4),
        3 => past_window(random, &mut record, window(shape)),
        4 => no_bytes::put(random, &mut record, |random| {
            no_bytes::beyond(random, window(shape))
        }),
        5 => {
            record = bytes(random, RECORD).try_into().expect("twelve bytes");
            record[..2].copy_from_slice(&[kind, 0]);
        }
        6 => record = good(random, shape, Event::LOG),
        7 => record = good(random, shape, Event::END),
        8 => record = ordered(random, shape, shared::sharing),
        9 => record = ordered(random, shape, shared::past),
        _ => {
            record = good(random, shape, Event::BEGIN);
            times = 1 + random.below(12);
        }
    }
    std::iter::repeat_n(record, times)
}

/// A record of this kind with ranges inside the window.
fn good(random: &mut Random, shape: &Shape, kind: u8) -> [u8; RECORD] {
    let nothing = Range::new(0, 0);
    let mut range = || random::range(random, shape);
    let (a, b) = match kind {
        Event::FENCE | Event::BEGIN | Event::END => (nothing, nothing),
        Event::ORDERED => (range(), range()),
        _ => (range(), nothing),
    };
    raw_record(kind, 0, a, b, random.bits() as u16)
}

/// An ordered with these ranges.
fn ordered(random: &mut Random, shape: &Shape, drawn: shared::Drawn) -> [u8; RECORD] {
    let mut record = good(random, shape, Event::ORDERED);
    shared::put(random, &mut record, window(shape), drawn);
    record
}

/// Sets so many fields of the ranges to values at edges.
fn set_fields(random: &mut Random, record: &mut [u8; RECORD], count: usize) {
    for _ in 0..count {
        let value = random.pick(&[0, 0, 1, 63, 64, 65, 128, 4_095, 4_096, 4_097, u16::MAX]);
        let at = random.pick(&[2, 4, 6, 8]);
        record[at..at + 2].copy_from_slice(&value.to_le_bytes());
    }
}

/// Sets a range to one that ends a byte behind the window, or behind 65,535.
fn past_window(random: &mut Random, record: &mut [u8; RECORD], window: usize) {
    let length = 1 + random.below(window);
    let address = match random.below(2) {
        0 => window - length + 1,
        _ => 65_536 - random.below(length + 1).max(1),
    };
    let at = random.pick(&[2, 2, 6]);
    record[at..at + 2].copy_from_slice(&(address as u16).to_le_bytes());
    record[at + 2..at + 4].copy_from_slice(&(length as u16).to_le_bytes());
}

/// The numbers of a writer that no start handed over: small ones, or some at edges.
fn any_numbers(random: &mut Random, lines: u16) -> [u32; 4] {
    let lines = u32::from(lines);
    let records = random.below(50) as u32;
    let small = [
        lines,
        random.below(100) as u32,
        records,
        random.below(3) as u32,
    ];
    let edges = [
        random.pick(&[0, 1, 65, 1_023, 1_024, 65_535, lines + 65_536, u32::MAX]),
        edge_offset(random, records),
        edge_count(random),
        random.pick(&[7, 8, 9, 65_535, 65_536, 65_537, u32::MAX]),
    ];
    let odds = random.pick(&[0, 1, 4]);
    std::array::from_fn(|at| match random.below(8) < odds {
        true => edges[at],
        false => small[at],
    })
}

/// An offset near the longest file, or one that in 32 bits passes 0 with so many records.
fn edge_offset(random: &mut Random, records: u32) -> u32 {
    match random.below(2) {
        0 => (MAX_TRACE - random.below(30)) as u32,
        _ => random.pick(&[0, 12, 28, 12 * records]).wrapping_neg(),
    }
}

/// A count near the longest file, or one whose records pass 0 in 32 bits.
fn edge_count(random: &mut Random) -> u32 {
    match random.below(2) {
        0 => random.pick(&[5_459, 5_460, 65_534, 65_535]),
        _ => random.pick(&[u32::MAX / 12, u32::MAX / 12 + 1, 1 << 30, u32::MAX]),
    }
}
