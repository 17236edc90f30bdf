//! Orders between two ranges that share a byte, which are refused by 18, and between two that share
//! none: they touch at an edge, or one of them has no byte.

use super::refused::{everywhere, GOOD};
use super::run::Run;
use super::{records, Cases};
use crate::event::{Event, Range};
use crate::trace::{self, raw_record, raw_trailer, MARK, MAX_TRACE, RECORD, TRAILER};

pub(super) fn add(cases: &mut Cases) {
    for run in runs() {
        cases.run(&format!("shared/{}", run.name), run.lines, &run.events());
    }
    places(cases);
    damaged_records(cases);
    in_front(cases);
}

/// All runs of the group that have their answers beside them.
pub fn runs() -> Vec<Run> {
    let mut runs = by_hand();
    for pair in &SHARING {
        runs.extend(HISTORIES.iter().map(|history| refused(pair, history)));
    }
    runs
}

/// Those of them that the calls file has too: the accepted ones by hand, and every pair that shares a
/// byte behind stores to both ranges.
pub fn given_singly() -> Vec<Run> {
    let mut runs = by_hand();
    runs.retain(|run| run.read().refused.is_none());
    runs.extend(SHARING.iter().map(|pair| refused(pair, &HISTORIES[1])));
    runs
}

/// The runs whose answers are worked out by hand; they come first.
pub fn by_hand() -> Vec<Run> {
    let run = |&(name, lines, script): &(&str, u16, &str)| Run::new(name, lines, script);
    BY_HAND.iter().map(run).collect()
}

const BY_HAND: [(&str, u16, &str); 55] = [
    // Ranges that touch at an edge.
    (
        "touching-fresh",
        2,
        "ordered 0/8 before 8/8; expect holds; ordered 8/8 before 0/8; expect holds;
        ordered 56/8 before 64/8; expect holds; ordered 64/8 before 56/8; expect holds;
        ordered 0/127 before 127/1; expect holds; ordered 127/1 before 0/127; expect holds;
        ordered 0/64 before 64/64; expect holds",
    ),
    (
        "touching-stored",
        2,
        "store 0/8; store 8/8; ordered 0/8 before 8/8; expect holds; ordered 8/8 before 0/8;
        expect out-of-order 8 0 1 2; ordered 0/7 before 7/1; expect holds; ordered 7/1 before 0/7;
        expect holds; ordered 7/1 before 8/1; expect holds; ordered 8/1 before 7/1;
        expect out-of-order 8 7 1 2",
    ),
    (
        "touching-in-a-word",
        2,
        "store 0/16; ordered 0/1 before 1/7; expect holds; ordered 1/7 before 0/1; expect holds;
        ordered 0/7 before 7/9; expect out-of-order 0 8 1 1; ordered 7/9 before 0/7;
        expect out-of-order 8 0 1 1; ordered 7/1 before 8/1; expect out-of-order 7 8 1 1;
        ordered 8/8 before 7/1; expect out-of-order 8 7 1 1",
    ),
    (
        "touching-at-a-line",
        2,
        "store 56/16; ordered 56/8 before 64/8; expect out-of-order 56 64 1 1;
        ordered 64/8 before 56/8; expect out-of-order 64 56 1 1; write-back 56/16; fence;
        ordered 63/1 before 64/1; expect out-of-order 63 64 1 1; persisted 56/16; expect holds",
    ),
    (
        "touching-durable",
        2,
        "store 0/8; write-back 0/8; fence; store 64/8; ordered 0/64 before 64/64; expect holds;
        ordered 64/64 before 0/64; expect out-of-order 64 0 1 4; ordered 0/8 before 8/120;
        expect holds; ordered 8/120 before 0/8; expect out-of-order 64 0 1 4",
    ),
    (
        "touching-across-lines",
        2,
        "store 58/4; store 62/8; ordered 58/4 before 62/8; expect out-of-order 58 64 2 1;
        ordered 62/8 before 58/4; expect out-of-order 62 58 1 2",
    ),
    (
        "touching-at-the-window-end",
        2,
        "store 112/16; ordered 112/15 before 127/1; expect out-of-order 112 127 1 1;
        ordered 127/1 before 112/15; expect out-of-order 127 112 1 1; ordered 120/7 before 127/1;
        expect holds; ordered 127/1 before 120/7; expect holds; ordered 127/1 before 126/1;
        expect holds",
    ),
    (
        "touching-in-one-line",
        1,
        "store 0/64; ordered 0/32 before 32/32; expect out-of-order 0 32 1 1;
        ordered 32/32 before 0/32; expect out-of-order 32 0 1 1; ordered 0/63 before 63/1;
        expect out-of-order 0 63 1 1; ordered 63/1 before 0/63; expect out-of-order 63 0 1 1;
        ordered 63/1 before 62/1; expect holds",
    ),
    (
        "touching-in-64-lines",
        64,
        "ordered 0/2048 before 2048/2048; expect holds; ordered 0/4095 before 4095/1; expect holds;
        ordered 4095/1 before 0/4095; expect holds; store 4094/2; ordered 4094/1 before 4095/1;
        expect holds; ordered 4095/1 before 0/4095; expect holds; ordered 0/1 before 1/4095;
        expect holds",
    ),
    (
        "one-byte-between",
        2,
        "store 0/17; ordered 0/8 before 9/8; expect out-of-order 0 9 1 1; ordered 9/8 before 0/8;
        expect out-of-order 9 0 1 1; ordered 62/1 before 64/1; expect holds",
    ),
    // Ranges of no bytes share none.
    (
        "empty-a-inside-b",
        2,
        "store 0/16; ordered 0/0 before 0/16; expect holds; ordered 1/0 before 0/16; expect holds;
        ordered 8/0 before 0/16; expect holds; ordered 15/0 before 0/16; expect holds;
        ordered 16/0 before 0/16; expect holds",
    ),
    (
        "empty-b-inside-a",
        2,
        "store 0/16; ordered 0/16 before 0/0; expect holds; ordered 0/16 before 1/0; expect holds;
        ordered 0/16 before 8/0; expect holds; ordered 0/16 before 15/0; expect holds;
        ordered 0/16 before 16/0; expect holds",
    ),
    (
        "empty-both",
        2,
        "store 0/16; ordered 0/0 before 0/0; expect holds; ordered 4/0 before 4/0; expect holds;
        ordered 4/0 before 5/0; expect holds; ordered 16/0 before 0/0; expect holds;
        ordered 128/0 before 128/0; expect holds; ordered 128/0 before 0/0; expect holds",
    ),
    (
        "empty-fresh",
        2,
        "ordered 4/0 before 0/16; expect holds; ordered 0/16 before 4/0; expect holds;
        ordered 64/0 before 0/128; expect holds; ordered 0/128 before 64/0; expect holds;
        ordered 128/0 before 0/128; expect holds; ordered 0/128 before 0/0; expect holds",
    ),
    (
        "empty-durable",
        2,
        "store 0/16; write-back 0/16; fence; ordered 4/0 before 0/16; expect holds;
        ordered 0/16 before 8/0; expect holds; ordered 8/0 before 8/0; expect holds; store 0/16;
        ordered 15/0 before 0/16; expect holds; ordered 0/16 before 15/0; expect holds",
    ),
    (
        "empty-beside-one-byte",
        1,
        "store 63/1; ordered 63/0 before 63/1; expect holds; ordered 63/1 before 63/0; expect holds;
        ordered 64/0 before 63/1; expect holds; ordered 63/1 before 64/0; expect holds",
    ),
    (
        "empty-in-64-lines",
        64,
        "ordered 4096/0 before 0/4096; expect holds; ordered 0/4096 before 2048/0; expect holds;
        ordered 4095/0 before 4095/1; expect holds; ordered 4095/1 before 4096/0; expect holds",
    ),
    // 9 comes first.
    ("9-a", 2, "ordered 120/9 before 120/8; refused 9 at 1"),
    ("9-b", 2, "ordered 120/8 before 120/9; refused 9 at 1"),
    ("9-both", 2, "ordered 121/8 before 121/8; refused 9 at 1"),
    ("9-a-and-one-byte", 2, "ordered 0/129 before 127/1; refused 9 at 1"),
    ("9-b-and-one-byte", 2, "ordered 127/1 before 127/2; refused 9 at 1"),
    ("9-shared-outside", 2, "ordered 128/8 before 128/8; refused 9 at 1"),
    ("9-one-byte-outside", 2, "ordered 120/16 before 135/1; refused 9 at 1"),
    ("9-only-b-outside", 2, "ordered 127/1 before 128/1; refused 9 at 1"),
    ("9-largest", 64, "ordered 65535/65535 before 65535/65535; refused 9 at 1"),
    ("9-past-65535", 64, "ordered 65535/2 before 0/1; refused 9 at 1"),
    ("9-empty-a", 2, "store 0/8; ordered 129/0 before 0/8; refused 9 at 2"),
    ("9-empty-b", 2, "store 0/8; ordered 0/8 before 129/0; refused 9 at 2"),
    (
        "9-then-18",
        2,
        "ordered 0/8 before 121/8; ordered 0/8 before 0/8; refused 9 at 1",
    ),
    (
        "18-then-9",
        2,
        "ordered 0/8 before 0/8; ordered 0/8 before 121/8; refused 18 at 1",
    ),
    // 11 and 12 at another record.
    ("18-then-11-end", 2, "ordered 0/8 before 7/1; end; refused 18 at 1"),
    ("18-then-11-log", 2, "ordered 0/8 before 7/1; log 0/8; refused 18 at 1"),
    ("11-end-then-18", 2, "end; ordered 0/8 before 7/1; refused 11 at 1"),
    ("11-log-then-18", 2, "log 0/8; ordered 0/8 before 7/1; refused 11 at 1"),
    (
        "18-at-depth-8",
        2,
        "begin; begin; begin; begin; begin; begin; begin; begin; ordered 0/8 before 7/1;
        refused 18 at 9",
    ),
    (
        "18-then-12",
        2,
        "begin; begin; begin; begin; begin; begin; begin; begin; ordered 0/8 before 7/1; begin;
        refused 18 at 9",
    ),
    (
        "12-then-18",
        2,
        "begin; begin; begin; begin; begin; begin; begin; begin; begin; ordered 0/8 before 7/1;
        refused 12 at 9",
    ),
    // Transactions that stay open, and others.
    (
        "18-before-13",
        2,
        "begin; store 0/8; ordered 0/8 before 0/8; refused 18 at 3",
    ),
    (
        "18-before-13-and-more",
        2,
        "begin; ordered 0/8 before 0/8; store 0/8; refused 18 at 2",
    ),
    (
        "13-behind-touching",
        2,
        "begin; store 0/8; ordered 0/8 before 8/8; refused 13 at 0",
    ),
    (
        "18-in-a-transaction",
        2,
        "begin; log 0/8; store 0/8; ordered 0/4 before 3/5; write-back 0/8; fence; end;
        refused 18 at 4",
    ),
    (
        "18-behind-an-end",
        2,
        "begin; log 0/8; store 0/8; end; ordered 0/8 before 0/4; refused 18 at 5",
    ),
    // Behind findings, and behind orders that are taken.
    (
        "18-twice",
        2,
        "store 0/8; ordered 0/8 before 0/8; ordered 0/8 before 0/8; refused 18 at 2",
    ),
    (
        "18-behind-touching",
        2,
        "store 0/16; ordered 0/8 before 8/8; ordered 8/8 before 0/8; ordered 0/8 before 7/8;
        refused 18 at 4",
    ),
    (
        "18-behind-empty",
        2,
        "ordered 4/0 before 0/8; ordered 0/8 before 4/0; ordered 4/1 before 0/8; refused 18 at 3",
    ),
    (
        "18-behind-findings",
        2,
        "store 0/8; persisted 0/8; write-back 64/8; ordered 0/8 before 0/8; refused 18 at 4",
    ),
    // An order that could not be out of order, and others that would be.
    (
        "18-stored-elsewhere",
        2,
        "store 64/8; ordered 0/8 before 0/8; refused 18 at 2",
    ),
    (
        "18-one-word",
        2,
        "store 0/16; ordered 0/8 before 4/4; refused 18 at 2",
    ),
    (
        "18-two-words",
        2,
        "store 0/16; ordered 0/16 before 0/16; refused 18 at 2",
    ),
    (
        "18-two-lines",
        2,
        "store 60/8; ordered 60/8 before 60/8; refused 18 at 2",
    ),
    (
        "18-in-order",
        2,
        "store 0/8; write-back 0/8; fence; store 64/8; ordered 0/65 before 64/8; refused 18 at 5",
    ),
    (
        "18-out-of-order",
        2,
        "store 64/8; store 0/8; ordered 0/65 before 64/8; refused 18 at 3",
    ),
    (
        "18-never-stored-byte",
        2,
        "store 0/8; store 9/8; ordered 0/9 before 8/9; refused 18 at 3",
    ),
    (
        "18-stored-byte",
        2,
        "store 8/1; ordered 0/9 before 8/8; refused 18 at 2",
    ),
];

/// What happened before the order, of its ranges A and B.
const HISTORIES: [(&str, &str); 3] = [
    ("fresh", ""),
    ("stored", "store A; store B; "),
    (
        "durable",
        "store A; write-back A; fence; store B; write-back B; fence; ",
    ),
];

/// Ranges that share a byte: a name, the window's lines, A and B.
const SHARING: [(&str, u16, &str, &str); 45] = [
    // One byte.
    ("last-is-first", 2, "0/8", "7/8"),
    ("first-is-last", 2, "7/8", "0/8"),
    ("byte-63", 2, "56/8", "63/8"),
    ("byte-63-down", 2, "63/8", "56/8"),
    ("byte-64", 2, "60/5", "64/8"),
    ("byte-64-down", 2, "64/8", "60/5"),
    ("line-and-its-last", 2, "0/64", "63/2"),
    ("last-of-1-line", 1, "56/8", "63/1"),
    ("last-of-1-line-down", 1, "63/1", "56/8"),
    ("last-of-2-lines", 2, "120/8", "127/1"),
    ("last-of-2-lines-down", 2, "127/1", "120/8"),
    ("last-of-63-lines", 63, "4024/8", "4031/1"),
    ("last-of-64-lines", 64, "4088/8", "4095/1"),
    ("last-of-64-lines-down", 64, "4095/1", "4088/8"),
    // Several bytes.
    ("four", 2, "0/8", "4/8"),
    ("four-down", 2, "4/8", "0/8"),
    ("all-but-one", 2, "0/8", "1/8"),
    ("all-but-one-down", 2, "1/8", "0/8"),
    ("across-lines", 2, "58/8", "62/8"),
    ("across-lines-down", 2, "62/8", "58/8"),
    // B inside A.
    ("b-at-the-start", 2, "0/16", "0/8"),
    ("b-in-the-middle", 2, "0/16", "4/8"),
    ("b-at-the-end", 2, "0/16", "8/8"),
    ("b-one-byte", 2, "0/16", "5/1"),
    ("b-across-lines", 2, "56/16", "62/4"),
    ("b-in-the-window", 64, "0/4096", "2048/1"),
    ("b-at-the-window-end", 64, "0/4096", "4095/1"),
    // A inside B.
    ("a-at-the-start", 2, "0/8", "0/16"),
    ("a-in-the-middle", 2, "4/8", "0/16"),
    ("a-at-the-end", 2, "8/8", "0/16"),
    ("a-one-byte", 2, "5/1", "0/16"),
    ("a-across-lines", 2, "62/4", "56/16"),
    ("a-in-the-window", 64, "2048/1", "0/4096"),
    // The same.
    ("byte", 2, "5/1", "5/1"),
    ("part-of-a-word", 2, "3/2", "3/2"),
    ("word", 2, "8/8", "8/8"),
    ("line", 2, "64/64", "64/64"),
    ("part-of-two-lines", 2, "60/8", "60/8"),
    ("three-lines", 4, "64/192", "64/192"),
    ("window-of-1", 1, "0/64", "0/64"),
    ("window-of-2", 2, "0/128", "0/128"),
    ("window-of-64", 64, "0/4096", "0/4096"),
    ("first-byte", 2, "0/1", "0/1"),
    ("last-byte", 2, "127/1", "127/1"),
    ("last-byte-of-64", 64, "4095/1", "4095/1"),
];

/// The order of a pair behind a history.
fn refused(
    &(name, lines, a, b): &(&str, u16, &str, &str),
    &(before, history): &(&str, &str),
) -> Run {
    let history = history.replace('A', a).replace('B', b);
    let record = history.matches(';').count() + 1;
    let script = format!("{history}ordered {a} before {b}; refused 18 at {record}");
    Run::new(&format!("{name}-{before}"), lines, &script)
}

/// In place of the first, a middle and the last record of a good run; and orders that are taken in
/// front of the first record, of a middle one, and behind the last one.
fn places(cases: &mut Cases) {
    for (name, event) in [
        ("same", "ordered 0/8 before 0/8"),
        ("last-byte", "ordered 0/8 before 7/8"),
        ("elsewhere", "ordered 100/8 before 96/8"),
    ] {
        everywhere(cases, &format!("shared/18-{name}"), records(event)[0]);
    }
    for (name, event) in [
        ("touching", "ordered 0/8 before 8/8"),
        ("empty", "ordered 0/8 before 4/0"),
    ] {
        for (place, at) in [("first", 0), ("middle", 4), ("last", 7)] {
            let mut all = records(GOOD);
            all.insert(at, records(event)[0]);
            let name = format!("shared/inserted-{name}-{place}");
            cases.add(&name, trace::assemble(2, &[], &all));
        }
    }
}

/// 6 and 7 in a record whose ranges share a byte, some of them past the window.
fn damaged_records(cases: &mut Cases) {
    let (good, past) = (Range::new(0, 8), Range::new(121, 8));
    for (name, record) in [
        ("6-kind-0", raw_record(0, 0, good, good, 3)),
        ("6-kind-9", raw_record(9, 0, good, good, 3)),
        ("6-kind-9-zero", raw_record(9, 1, past, past, 3)),
        ("7-zero", raw_record(Event::ORDERED, 1, good, good, 3)),
        (
            "7-zero-past",
            raw_record(Event::ORDERED, 255, past, past, 3),
        ),
        ("7-store", raw_record(Event::STORE, 0, good, good, 3)),
        (
            "7-persisted",
            raw_record(Event::PERSISTED, 0, good, good, 3),
        ),
        ("7-log", raw_record(Event::LOG, 0, past, past, 3)),
        ("7-fence", raw_record(Event::FENCE, 0, good, good, 3)),
        ("7-end", raw_record(Event::END, 0, good, good, 3)),
    ] {
        let mut all = records("store 0/8; fence");
        all.insert(1, record);
        cases.add(&format!("shared/{name}"), trace::assemble(2, &[], &all));
    }
}

/// 1 to 5 and 14, with a record that 18 would refuse.
fn in_front(cases: &mut Cases) {
    let record = records("ordered 0/8 before 0/8")[0];
    let with = |trailer: [u8; TRAILER]| [record.as_slice(), &trailer].concat();
    let too_long = vec![0; MAX_TRACE + 1 - RECORD - TRAILER];
    for (name, trace, area) in [
        ("1", record.to_vec(), 12),
        ("2", trace::assemble(2, &too_long, &[record]), 12),
        ("3", with(raw_trailer(*b"PTRa", 0, 1, 2, 0)), 12),
        ("4-lines", with(raw_trailer(MARK, 0, 1, 65, 0)), 12),
        ("4-zero", with(raw_trailer(MARK, 0, 1, 2, 1)), 12),
        ("5", with(raw_trailer(MARK, 0, 2, 2, 0)), 24),
        ("14", with(raw_trailer(MARK, 0, 1, 2, 0)), 11),
        ("14-no-area", with(raw_trailer(MARK, 0, 1, 2, 0)), 0),
        ("18", with(raw_trailer(MARK, 0, 1, 2, 0)), 12),
        ("18-longer-area", with(raw_trailer(MARK, 0, 1, 2, 0)), 30),
    ] {
        cases.add_with_area(&format!("shared/in-front-{name}"), trace, area);
    }
}
