//! Every refusal that a trace can get, with its order, against answers written by hand.

use reference::direct::Run;
use reference::images::History;
use reference::trace::{assemble, encode, raw_record, raw_trailer, MARK};
use reference::writer::{self, Writer};
use reference::{judge, judge_by_images, singly, Event, Outcome, Range, Record, Way};

const NOTHING: Range = Range::new(0, 0);

fn refused(trace: &[u8], area: usize, number: u8, record: usize) {
    let expected = Outcome::refused(number, record);
    assert_eq!(judge(trace, area), expected, "{trace:?}");
    assert_eq!(judge_by_images(trace, area), expected, "{trace:?}");
}

fn accepted(trace: &[u8], area: usize) {
    assert!(judge(trace, area).report().is_some(), "{trace:?}");
    assert!(judge_by_images(trace, area).report().is_some(), "{trace:?}");
}

fn event(event: Event) -> [u8; 12] {
    encode(&Record { event, site: 5 })
}

fn fence() -> [u8; 12] {
    event(Event::Fence)
}

/// A record behind a fence, and before another, in a window of two lines.
fn second(record: [u8; 12]) -> Vec<u8> {
    assemble(2, &[], &[fence(), record, fence()])
}

#[test]
fn lengths() {
    let trailer = raw_trailer(MARK, 0, 0, 2, 0);
    for length in 0..16 {
        refused(&trailer[..length], 0, 1, 0);
        refused(&trailer[16 - length..], 0, 1, 0);
    }
    accepted(&trailer, 0);
    let longest = assemble(1, &vec![7; 65_520], &[]);
    assert_eq!(longest.len(), 65_536);
    accepted(&longest, 0);
    refused(&assemble(1, &vec![7; 65_521], &[]), 0, 2, 0);
    refused(&vec![0; 70_000], 0, 2, 0);
    let records = vec![fence(); 5_460];
    let largest = assemble(64, &[], &records);
    assert_eq!(largest.len(), 65_536);
    let events = judge(&largest, 65_520).report().map(|r| r.totals.events);
    assert_eq!(events, Some(5_460));
}

#[test]
fn trailers() {
    for byte in 0..4 {
        let mut mark = MARK;
        mark[byte] ^= 0x20;
        refused(&raw_trailer(mark, 0, 0, 2, 0), 0, 3, 0);
    }
    for lines in [1, 2, 63, 64] {
        accepted(&raw_trailer(MARK, 0, 0, lines, 0), 0);
    }
    for lines in [0, 65, 256, 257, 65_535] {
        refused(&raw_trailer(MARK, 0, 0, lines, 0), 0, 4, 0);
    }
    for zero in [1, 256, 65_535] {
        refused(&raw_trailer(MARK, 0, 0, 2, zero), 0, 4, 0);
    }
}

#[test]
fn sums() {
    for (offset, count) in [(1, 0), (0, 1), (u32::MAX, 0), (0, u32::MAX)] {
        refused(&raw_trailer(MARK, offset, count, 2, 0), 0, 5, 0);
    }
    // Right in 32 bits, wrong in more.
    for (offset, count) in [
        (0, 0x4000_0000),
        (0u32.wrapping_sub(12), 1),
        (0x8000_0000, 0x2000_0000),
        (4, 0x5555_5555),
    ] {
        assert_eq!(offset.wrapping_add(12u32.wrapping_mul(count)), 0);
        refused(&raw_trailer(MARK, offset, count, 2, 0), 0, 5, 0);
    }
}

#[test]
fn areas() {
    let trace = assemble(2, &[1, 2, 3], &[fence(), fence()]);
    for area in [0, 12, 23] {
        refused(&trace, area, 14, 0);
    }
    for area in [24, 25, 1000] {
        accepted(&trace, area);
    }
}

#[test]
fn kinds() {
    for kind in (0..=255).filter(|kind| !(1..=8).contains(kind)) {
        refused(&second(raw_record(kind, 0, NOTHING, NOTHING, 0)), 36, 6, 2);
    }
}

#[test]
fn lacking_fields() {
    let a = Range::new(0, 8);
    for kind in 1..=8 {
        let has_a = ![Event::FENCE, Event::BEGIN, Event::END].contains(&kind);
        let has_b = kind == Event::ORDERED;
        let used_a = if has_a { a } else { NOTHING };
        let used_b = if has_b { Range::new(64, 8) } else { NOTHING };
        let good = raw_record(kind, 0, used_a, used_b, 0xffff);
        for byte in 1..10 {
            let lacking = match byte {
                1 => true,
                2..=5 => !has_a,
                _ => !has_b,
            };
            let mut record = good;
            record[byte] |= 0x80;
            if lacking {
                refused(&second(record), 36, 7, 2);
            } else {
                // The field is used: the range now runs past the window or stays inside.
                let refusal = judge(&second(record), 36).refusal();
                assert_ne!(refusal.map(|refusal| refusal.number), Some(7));
            }
        }
    }
}

#[test]
fn lengths_of_0() {
    for lines in [1u16, 2, 63, 64] {
        let window = lines * 64;
        for address in [0, 8, 63, 64, window - 1, window] {
            no_bytes(lines, Range::new(address, 0), None);
        }
        for address in [window + 1, window + 64, 60_000, 65_535] {
            no_bytes(lines, Range::new(address, 0), Some(9));
        }
    }
    let (empty, past) = (Range::new(8, 0), Range::new(128, 1));
    refused(&second(event(Event::Ordered(past, empty))), 36, 9, 2);
    refused(&second(event(Event::Ordered(empty, past))), 36, 9, 2);
}

/// Every kind of event with a range of no bytes, behind a fence: accepted, or refused by a number. A
/// log is refused by 11 if nothing is open.
fn no_bytes(lines: u16, range: Range, number: Option<u8>) {
    let good = Range::new(0, 8);
    for kind in [
        Event::Store(range),
        Event::WriteBack(range),
        Event::Persisted(range),
        Event::Ordered(range, good),
        Event::Ordered(good, range),
        Event::Ordered(range, range),
    ] {
        let trace = assemble(lines, &[], &[fence(), event(kind), fence()]);
        match number {
            Some(number) => refused(&trace, 36, number, 2),
            None => accepted(&trace, 36),
        }
    }
    let (begin, end) = (event(Event::Begin), event(Event::End));
    let log = event(Event::Log(range));
    refused(&assemble(lines, &[], &[log]), 12, number.unwrap_or(11), 1);
    let inside = assemble(lines, &[], &[begin, log, end]);
    match number {
        Some(number) => refused(&inside, 36, number, 2),
        None => accepted(&inside, 36),
    }
}

#[test]
fn ranges() {
    for lines in [1u16, 2, 63, 64] {
        let window = lines * 64;
        let inside = [
            Range::new(0, window),
            Range::new(window - 1, 1),
            Range::new(window - 8, 8),
        ];
        for range in inside {
            accepted(&assemble(lines, &[], &[event(Event::Store(range))]), 12);
        }
        let past = [
            Range::new(window, 1),
            Range::new(0, window + 1),
            Range::new(window - 7, 8),
            Range::new(65_535, 1),
            Range::new(65_535, 65_535),
            Range::new(1, 65_535),
        ];
        for range in past {
            let good = Range::new(0, 1);
            for bad in [
                Event::Store(range),
                Event::WriteBack(range),
                Event::Log(range),
                Event::Persisted(range),
                Event::Ordered(range, good),
                Event::Ordered(good, range),
            ] {
                refused(&assemble(lines, &[], &[fence(), event(bad)]), 24, 9, 2);
            }
        }
    }
}

#[test]
fn transactions() {
    let (begin, end) = (event(Event::Begin), event(Event::End));
    let log = event(Event::Log(Range::new(0, 8)));
    refused(&assemble(2, &[], &[end]), 12, 11, 1);
    refused(&assemble(2, &[], &[log]), 12, 11, 1);
    refused(&assemble(2, &[], &[begin, end, log]), 36, 11, 3);
    refused(&assemble(2, &[], &[begin, end, end]), 36, 11, 3);
    refused(&assemble(2, &[], &[begin; 9]), 108, 12, 9);
    refused(&assemble(2, &[], &[begin; 8]), 96, 13, 0);
    refused(&assemble(2, &[], &[begin]), 12, 13, 0);
    accepted(&assemble(2, &[], &[begin, log, end]), 36);
    accepted(&assemble(2, &[], &[[begin; 8], [end; 8]].concat()), 192);
}

#[test]
fn shared_bytes() {
    let (a, begin) = (Range::new(0, 8), event(Event::Begin));
    let ordered = |a, b| event(Event::Ordered(a, b));
    for b in [(0, 8), (7, 1), (7, 8), (0, 1), (2, 3), (0, 128)] {
        let b = Range::new(b.0, b.1);
        for record in [ordered(a, b), ordered(b, a)] {
            refused(&assemble(2, &[], &[record]), 12, 18, 1);
            refused(&second(record), 36, 18, 2);
            refused(&assemble(2, &[7], &[begin, record]), 24, 18, 2);
            refused(
                &assemble(2, &[], &[[begin; 9], [record; 9]].concat()),
                216,
                12,
                9,
            );
            refused(
                &assemble(2, &[], &[[begin; 8], [record; 8]].concat()),
                192,
                18,
                9,
            );
            refused(&second(record), 35, 14, 0);
        }
    }
    for b in [(8, 8), (8, 120), (9, 1), (0, 0), (4, 0), (8, 0), (128, 0)] {
        let b = Range::new(b.0, b.1);
        accepted(&second(ordered(a, b)), 36);
        accepted(&second(ordered(b, a)), 36);
    }
    let zero_set = raw_record(Event::ORDERED, 1, a, a, 0);
    refused(&second(zero_set), 36, 7, 2);
    refused(&second(raw_record(9, 0, a, a, 0)), 36, 6, 2);
    refused(&second(ordered(Range::new(0, 129), a)), 36, 9, 2);
    refused(&second(ordered(a, Range::new(0, 129))), 36, 9, 2);
    refused(
        &second(ordered(Range::new(128, 1), Range::new(128, 1))),
        36,
        9,
        2,
    );
}

/// Every pair of short ranges around a place, in a window of so many lines: each way and the writer
/// give 9, 18 or none of them, by the bytes of both as sets. Gives the counts of none, 9 and 18.
fn every_pair(lines: u16, first: u16) -> [usize; 3] {
    const PLACES: u16 = 9;
    let ranges: Vec<Range> = (first..first + PLACES)
        .flat_map(|address| (0..PLACES).map(move |length| Range::new(address, length)))
        .collect();
    let set = |range: Range| ((1u64 << range.length) - 1) << (range.address - first);
    let window = u64::from(lines) * 64 - u64::from(first);
    let is_past = |range: Range| u64::from(range.address - first + range.length) > window;
    let mut counts = [0; 3];
    for &a in &ranges {
        for &b in &ranges {
            let (at, number) = match (is_past(a) || is_past(b), set(a) & set(b)) {
                (true, _) => (1, Some(9)),
                (false, 0) => (0, None),
                (false, _) => (2, Some(18)),
            };
            let record = Record {
                event: Event::Ordered(a, b),
                site: 5,
            };
            assert_eq!(given::<Run>(lines, &record), number, "{record:?}");
            assert_eq!(given::<History>(lines, &record), number, "{record:?}");
            assert_eq!(written(lines, &record), number, "{record:?}");
            counts[at] += 1;
        }
    }
    counts
}

/// The number that a fresh run gives to an event.
fn given<W: Way>(lines: u16, record: &Record) -> Option<u8> {
    let (mut run, _) = singly::fresh::<W>(lines);
    let given = singly::give(&mut run, record);
    given.err().map(|refusal| refusal.number)
}

/// The number that a writer gives to an event.
fn written(lines: u16, record: &Record) -> Option<u8> {
    let mut writer = Writer {
        lines,
        offset: 0,
        count: 0,
        open: 0,
    };
    writer::event(&mut [0; 12], &mut writer, &encode(record)).err()
}

#[test]
fn every_pair_of_ranges() {
    for (lines, first) in [(1, 0), (2, 60), (1, 58), (2, 122), (64, 4_090)] {
        let counts = every_pair(lines, first);
        println!("{lines} lines, from {first}: none, 9 and 18: {counts:?}");
        assert_eq!(counts.iter().sum::<usize>(), 81 * 81);
        assert!(counts[0] > 0 && counts[2] > 0);
        assert_eq!(
            counts[1] > 0,
            usize::from(first) + 16 > usize::from(lines) * 64
        );
    }
}

/// The order 1, 2, 3, 4, 5, 14, then record by record, then 13.
#[test]
fn order() {
    let bad = event(Event::End);
    let trace = |trailer: [u8; 16]| [bad.as_slice(), &trailer].concat();
    refused(b"PTR", 0, 1, 0);
    refused(&[vec![0; 65_521], vec![1; 16]].concat(), 0, 2, 0);
    refused(&trace(raw_trailer(*b"PTRa", 9, 9, 99, 9)), 0, 3, 0);
    refused(&trace(raw_trailer(MARK, 9, 9, 99, 9)), 0, 4, 0);
    refused(&trace(raw_trailer(MARK, 9, 9, 9, 9)), 0, 4, 0);
    refused(&trace(raw_trailer(MARK, 9, 9, 9, 0)), 0, 5, 0);
    refused(&trace(raw_trailer(MARK, 0, 1, 9, 0)), 0, 14, 0);
    refused(&trace(raw_trailer(MARK, 0, 1, 9, 0)), 12, 11, 1);
    // In one record.
    let past = Range::new(999, 9);
    refused(&second(raw_record(9, 1, past, past, 0)), 36, 6, 2);
    refused(
        &second(raw_record(Event::LOG, 1, NOTHING, past, 0)),
        36,
        7,
        2,
    );
    refused(
        &second(raw_record(Event::LOG, 0, Range::new(999, 0), NOTHING, 0)),
        36,
        9,
        2,
    );
    refused(
        &second(raw_record(Event::LOG, 0, past, NOTHING, 0)),
        36,
        9,
        2,
    );
    let mut begins = [event(Event::Begin); 9];
    begins[8][1] = 1;
    refused(&assemble(2, &[], &begins), 108, 7, 9);
    // The earlier record counts, and 13 comes last.
    let unknown = raw_record(9, 0, NOTHING, NOTHING, 0);
    let begin = event(Event::Begin);
    refused(&assemble(2, &[], &[fence(), bad, unknown]), 36, 11, 2);
    refused(&assemble(2, &[], &[begin, unknown]), 24, 6, 2);
    refused(
        &assemble(2, &[], &[[begin; 9].to_vec(), vec![unknown]].concat()),
        120,
        12,
        9,
    );
}
