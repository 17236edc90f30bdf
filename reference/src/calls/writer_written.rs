//! Calls of the writer written by hand. Every case sets its area, preamble and writer itself, so
//! that its answers do not depend on the cases before it.

use super::written::{case, repeat};
use super::{Call, Case};
use crate::event::{Event, Range};
use crate::trace::raw_record;

pub(super) fn cases() -> Vec<Case> {
    let mut cases = Vec::new();
    let mut add = |group, runs: Vec<String>| {
        cases.extend(runs.iter().map(|run| case(group, run)));
    };
    add("writer areas", areas());
    add("writer lengths", LENGTHS.map(String::from).to_vec());
    add("writer lines", lines());
    add("writer refused", refused());
    add("writer depth", vec![depth()]);
    add("writer closings", closings());
    add("writer preambles", PREAMBLES.map(String::from).to_vec());
    add("writer numbers", numbers());
    add("writer no bytes", NO_BYTES.map(String::from).to_vec());
    add("writer shared", shared());
    cases.extend(records());
    cases
}

// Areas: long enough, and one byte short, for the preamble, for each record and for the trailer.

fn areas() -> Vec<String> {
    let mut runs = Vec::new();
    for length in [0, 2, 3, 14, 15, 18, 19, 26, 27, 30, 31, 42, 43, 44] {
        runs.push(format!(
            "area {length}; writer 1 0 0 0; preamble 3 from 1; start 2; write store 0/8;
            write fence; finish"
        ));
    }
    for length in [0, 11, 12, 15, 16, 23, 24, 27, 28, 39, 40, 41] {
        runs.push(format!(
            "area {length}; preamble 0 from 0; start 1; finish; write fence; finish; write begin;
            finish; write end; finish"
        ));
    }
    runs
}

// The longest file, 65,536 bytes.

const LENGTHS: [&str; 12] = [
    // Preambles with room for the trailer alone, and one byte more.
    "area 65536; preamble 65520 from 1; start 64; write fence; finish; finish",
    "area 65600; preamble 65520 from 1; start 1; preamble 65521 from 1; start 64; start 65;
    preamble 65536 from 2; start 64; preamble 65600 from 2; start 64; finish",
    "area 65519; writer 1 0 0 0; preamble 65520 from 1; start 1; start 0; preamble 65521 from 1;
    start 1; start 0; preamble 65519 from 1; start 1; write fence; finish",
    "area 65535; preamble 65520 from 3; start 1; write fence; finish",
    // Room for one record, and one byte less.
    "area 65536; preamble 65508 from 3; start 2; write store 0/8; write fence; finish; write fence;
    finish",
    "area 65536; preamble 65509 from 3; start 2; write store 0/8; finish",
    "area 65519; preamble 65508 from 3; start 2; write fence; finish",
    "area 65520; preamble 65508 from 3; start 2; write fence; write fence; finish",
    // A transaction that cannot be ended.
    "area 65536; preamble 65508 from 3; start 2; write begin; write end; finish",
    // Room for two records, the file closed in between.
    "area 65600; preamble 65496 from 7; start 3; finish; write store 0/8; finish;
    write persisted 0/8; finish; write persisted 0/8; finish",
    // 2 before every other number that applies, the area too short among them.
    "area 65509; preamble 65509 from 3; start 2; write record 09 01 ff ff ff ff ff ff ff ff 00 00;
    write record 03 01 00 00 00 00 00 00 00 00 00 00; write store 129/0; write store 128/1;
    write log 0/8; write end; write begin; finish",
    // With one byte less it does not apply.
    "area 65508; preamble 65508 from 3; start 2; write record 09 01 ff ff ff ff ff ff ff ff 00 00;
    write record 03 01 00 00 00 00 00 00 00 00 00 00; write store 129/0; write store 128/1;
    write log 0/8; write end; write begin; finish",
];

// Line counts, and the windows that they make.

fn lines() -> Vec<String> {
    let mut runs = vec![LINE_COUNTS.to_string(), REFUSED_STARTS.to_string()];
    for lines in [1, 2, 63, 64] {
        let (window, past) = (64 * lines, 64 * lines + 1);
        let last = window - 1;
        runs.push(format!(
            "area 66; preamble 2 from 250; start {lines}; write store {last}/1;
            write store {window}/1; write write-back 0/{window}; write log 0/{past}; write fence;
            write persisted 0/{past}; write ordered {last}/1 before {window}/1;
            write ordered {window}/1 before {last}/1; write ordered {last}/1 before 0/{last};
            finish"
        ));
    }
    runs
}

/// 4 before 2 before 15.
const LINE_COUNTS: &str = "area 10; preamble 65521 from 0; start 0; start 1; start 64; start 65;
    start 257; start 65535; preamble 11 from 0; start 0; start 1; start 64; start 65; start 66;
    start 255; start 256; start 257; start 320; start 32769; start 65535; preamble 10 from 0;
    start 0; start 65; start 257; start 65535; start 64; start 1";

/// A refused start leaves the file that is being written.
const REFUSED_STARTS: &str = "area 60; preamble 2 from 1; start 2; write store 64/8; start 0;
    write store 64/8; preamble 61 from 9; start 1; write store 120/8; preamble 65521 from 9;
    start 1; write store 121/8; start 65; finish; start 65; write fence; finish; finish";

// A refused call between any two.

fn refused() -> Vec<String> {
    let events = [
        "write store 0/8",
        "write begin",
        "write log 64/8",
        "write end",
        "finish",
        "write fence",
    ];
    let bad = [
        "write record 00 00 00 00 00 00 00 00 00 00 00 00",
        "write record 06 00 01 00 00 00 00 00 00 00 00 00",
        "write persisted 129/0",
        "write ordered 0/8 before 121/8",
        "start 0",
    ];
    let roomy = "area 160; preamble 5 from 9; start 2";
    let mut runs = vec![between(roomy, &events, &bad)];
    // An end or a log with no transaction open, and a closing.
    runs.push(between(
        roomy,
        &events[4..],
        &["write log 0/8", "write end"],
    ));
    runs.push(between(roomy, &[events[0], "write fence"], &["write end"]));
    runs.push(between(roomy, &["write begin"; 3], &["finish", bad[3]]));
    // The ninth begin.
    let begins = format!("{roomy}; {}", repeat("write begin", 8));
    let inside = ["write store 0/8", "write log 0/8"];
    runs.push(between(&begins, &inside, &["write begin", "finish"]));
    runs.extend(refused_when_full(bad[0]));
    runs
}

/// A full file, and a full area.
fn refused_when_full(unknown: &str) -> [String; 2] {
    let full = "area 65536; preamble 65484 from 9; start 2";
    let stores = ["write store 0/8", "write store 8/8", "write store 16/8"];
    let tried = ["write log 0/8", "write store 129/0", unknown];
    let in_file = between(full, &stores, &tried) + "; write fence; finish";
    let short = "area 45; preamble 9 from 9; start 2";
    let tried = ["write record 01 01 00 00 08 00 00 00 00 00 00 00", "finish"];
    let in_area = between(short, &stores, &tried) + "; write fence; write begin; finish";
    [in_file, in_area]
}

/// The first calls, then each of the others with all of these behind it.
fn between(first: &str, calls: &[&str], refused: &[&str]) -> String {
    let refused = refused.join("; ");
    let mut run = format!("{first}; {refused}");
    for call in calls {
        run.push_str(&format!("; {call}; {refused}"));
    }
    run + "; finish"
}

// Eight transactions open.

/// 7 before 12, 12 before 15, and 13 before 15.
fn depth() -> String {
    let begins = repeat("write begin", 8);
    format!(
        "area 120; preamble 1 from 7; start 1; {begins};
        write record 04 01 00 00 00 00 00 00 00 00 00 00;
        write record 04 00 01 00 00 00 00 00 00 00 00 00;
        write record 04 00 00 00 00 00 00 00 00 01 00 00; write store 65/0; write log 64/1;
        write begin; write log 0/8; write begin; write end; finish"
    )
}

// Closings.

fn closings() -> Vec<String> {
    let (begins, ends) = (repeat("write begin", 8), repeat("write end; finish", 8));
    let mut runs = CLOSINGS.map(String::from).to_vec();
    runs.push(format!(
        "area 300; preamble 1 from 200; start 1; {begins}; write begin; finish; {ends}; write end;
        write log 0/8; finish"
    ));
    runs
}

const CLOSINGS: [&str; 8] = [
    // Twice.
    "area 60; preamble 3 from 1; start 2; write store 0/8; finish; finish",
    // Events behind it, each in the trailer's place. Of the trailer, four bytes stay.
    "area 80; preamble 3 from 1; start 2; finish; write fence; finish; write store 0/8;
    write persisted 0/8; finish; finish",
    // Refused events behind it leave the trailer.
    "area 35; preamble 3 from 1; start 2; write fence; finish; write end; write store 128/1;
    write fence; finish",
    // A transaction open, and the area too short as well.
    "area 15; preamble 3 from 1; start 2; write begin; finish; write end; finish",
    "area 27; preamble 3 from 1; start 2; write begin; finish; write end; finish",
    // Room for the record and not for the trailer.
    "area 30; preamble 3 from 1; start 2; finish; write store 0/8; finish; write fence; finish",
    // Closed, opened by a begin, closed after the end.
    "area 90; preamble 0 from 0; start 2; write begin; write store 0/8; write end; finish;
    write begin; finish; write log 0/8; finish; write begin; finish; write end; finish; write end;
    finish",
    // A shorter file over a longer one.
    "area 70; preamble 7 from 40; start 64; write store 4088/8; write fence; finish;
    preamble 2 from 90; start 1; finish; write fence; finish; preamble 0 from 0; start 2; finish",
];

// Preambles that are files, and other parts of an area.

const PREAMBLES: [&str; 8] = [
    // A closed file in front of the next one, in the same area.
    "area 80; preamble 3 from 1; start 2; write store 0/8; finish; preamble of area 31; start 2;
    finish; write fence; finish; finish",
    // In a fresh area just long enough.
    "area 31; preamble 3 from 1; start 2; write store 0/8; finish; preamble of area 31; area 59;
    start 64; write fence; finish",
    // A file of no records, three times.
    "area 64; preamble 0 from 0; start 1; finish; preamble of area 16; start 2; finish;
    preamble of area 32; start 3; finish; preamble of area 48; start 4; finish; write fence",
    // A file that has lost its last byte, and a trailer alone.
    "area 28; preamble 0 from 0; start 1; write fence; finish; preamble of area 27; area 60;
    start 5; write fence; finish",
    "area 16; preamble 0 from 0; start 9; finish; preamble of area 16; area 44; start 5;
    write fence; finish",
    // Nothing, and bytes that no call laid down.
    "area 40; preamble 5 from 3; preamble of area 0; start 1; write fence; finish;
    preamble of area 40; start 1; finish; area 60; start 1; finish",
    // A long file in front of the next one: no room in the file, then in the area.
    "area 65536; preamble 65492 from 5; start 1; write fence; finish; preamble of area 65520;
    start 2; finish; preamble of area 65521; start 2; preamble of area 65536; start 2; finish",
    // One byte, and the one preamble for two starts.
    "area 30; preamble 1 from 255; start 1; write fence; finish; start 2; finish; write fence;
    finish; area 29; start 3; write fence; finish",
];

// Writers of any numbers.

fn numbers() -> Vec<String> {
    let mut runs = vec![far(), WINDOWS.to_string()];
    runs.extend(OPEN.map(|open| {
        format!(
            "area 100; writer 2 4 1 {open}; finish; write begin; write log 0/8; write end;
            write end; write begin; write begin; finish"
        )
    }));
    runs.extend(PLACES.map(String::from));
    runs
}

/// Transactions open.
const OPEN: [u16; 7] = [0, 1, 7, 8, 9, 10, 255];

/// Offsets and counts that are far too large, some of them with sums that are small in 32 bits.
fn far() -> String {
    let mut run = "area 100; preamble 0 from 0".to_string();
    for (offset, count) in [
        (u32::MAX, 0),
        (0, u32::MAX),
        (u32::MAX, u32::MAX),
        (0u32.wrapping_sub(16), 0),
        (0u32.wrapping_sub(28), 0),
        (0u32.wrapping_sub(12), 1),
        (0u32.wrapping_sub(40), 1),
        (0, 0x4000_0000),
        (0, 0x3fff_ffff),
        (4, 0x5555_5555),
        (4, 0x1555_5555),
        (0x8000_0000, 0x2000_0000),
        (0, 65_534),
        (0, 65_535),
        (0, 65_536),
    ] {
        run.push_str(&format!(
            "; writer 2 {offset} {count} 0; write fence; finish"
        ));
    }
    run + "; writer 2 4294967295 65535 9; write begin; write store 0/0; finish"
}

/// Lines: windows of no byte, of more than 64 lines, and with 65,536 bytes or more.
const WINDOWS: &str = "area 60; writer 0 0 0 0; write store 1/0; write store 0/1; write fence;
    finish; writer 65 0 0 0; write store 4159/1; write store 4160/1; writer 1023 0 0 0;
    write store 65471/1; write store 65472/1; writer 1024 0 0 0; write store 65535/1;
    write store 65535/2; writer 2047 0 0 0; write store 65535/65535; writer 2048 0 0 0;
    write store 65535/65535; writer 65535 0 0 0; write ordered 65535/65535 before 0/65535;
    finish; writer 32768 0 0 0; write persisted 0/65535; finish";

/// Offsets and counts at the end of the longest file and of the area.
const PLACES: [&str; 6] = [
    "area 65536; writer 1 0 5459 0; write fence; write fence; finish; writer 1 0 5460 0;
    write fence; finish; writer 1 0 5461 0; write fence; finish",
    "area 65600; writer 1 0 5461 0; write fence; finish; writer 1 65508 0 0; write fence;
    write fence; finish; writer 1 65509 0 0; write fence; finish",
    "area 65600; writer 1 65584 0 0; write fence; finish; writer 1 65585 0 0; finish;
    writer 1 65520 0 0; write fence; finish; writer 1 65521 0 0; write fence; finish",
    "area 65519; writer 1 65508 0 0; write fence; write store 64/1; finish; writer 1 4 5458 0;
    write fence; finish; writer 1 11 5458 0; write fence; finish; writer 1 12 5458 0; write fence",
    // Bytes in front of the offset and between the records stay.
    "area 70; writer 2 20 1 0; write store 8/8; finish; writer 2 3 0 0; write fence; finish;
    writer 2 40 0 1; finish; write end; finish",
    // A started file goes on from other numbers, and a start from any.
    "area 70; preamble 4 from 9; start 2; write begin; writer 1 4 0 0; write end; write fence;
    finish; writer 64 0 0 255; preamble 1 from 7; start 3; finish; write store 191/1; finish",
];

// Ranges of no bytes.

const NO_BYTES: [&str; 8] = [
    // Every place up to the window's size.
    "area 100; preamble 2 from 1; start 2; write store 0/0; write write-back 64/0;
    write persisted 127/0; write ordered 128/0 before 128/0; finish",
    // Past the window, and a log with no transaction open.
    "area 100; preamble 0 from 0; start 1; write store 65/0; write write-back 65/0; write log 65/0;
    write persisted 65/0; write ordered 65/0 before 0/8; write ordered 0/8 before 65/0;
    write ordered 64/0 before 65/0; write store 65535/0; write log 64/0; write store 64/0; finish",
    // In a transaction.
    "area 100; preamble 1 from 7; start 64; write log 0/0; write begin; write log 4096/0;
    write store 4096/0; finish; write log 4097/0; write end; finish",
    // 6 and 7 before 9.
    "area 60; preamble 0 from 0; start 2; write record 01 01 00 00 00 00 00 00 00 00 00 00;
    write record 01 00 00 00 00 00 01 00 00 00 00 00;
    write record 01 00 c8 00 00 00 00 00 01 00 00 00;
    write record 03 00 01 00 00 00 00 00 00 00 00 00;
    write record 00 00 c8 00 00 00 00 00 00 00 00 00;
    write record 08 00 80 00 00 00 81 00 00 00 00 00;
    write record 08 00 80 00 00 00 80 00 00 00 09 00; finish",
    // The area too short, and the file too long.
    "area 11; preamble 0 from 0; start 1; write store 65/0; write store 64/0; finish",
    "area 65536; preamble 65509 from 3; start 2; write store 129/0; write store 0/0; finish",
    // In the trailer's place.
    "area 60; preamble 0 from 0; start 2; finish; write store 8/0; finish; write store 129/0; finish",
    // Windows of any count of lines, and of no byte.
    "area 60; writer 0 0 0 0; write store 0/0; write store 1/0; write ordered 0/0 before 1/0; finish;
    writer 65 0 0 0; write store 4160/0; write store 4161/0; writer 1024 0 0 0;
    write store 65535/0; writer 1023 0 0 0; write store 65472/0; write store 65473/0;
    writer 65535 0 0 0; write store 65535/0; finish",
];

// Orders between ranges that share a byte, or touch, or have none.

fn shared() -> Vec<String> {
    let (begins, ends) = (repeat("write begin", 8), repeat("write end", 8));
    let mut runs = SHARED.map(String::from).to_vec();
    // Between events refused by 11 and 12.
    runs.push(format!(
        "area 210; preamble 1 from 7; start 2; write end; write ordered 0/8 before 0/8; {begins};
        write ordered 0/8 before 0/8; write begin; finish; {ends}; write ordered 0/8 before 0/8;
        finish"
    ));
    runs
}

const SHARED: [&str; 7] = [
    // Ranges that share bytes, and ranges that touch.
    "area 60; preamble 2 from 1; start 2; write ordered 0/8 before 0/8; write ordered 0/8 before 7/8;
    write ordered 7/8 before 0/8; write ordered 0/8 before 8/8; write ordered 120/8 before 127/1;
    write ordered 8/8 before 0/8; finish",
    // No bytes inside the other range, and twice at one address.
    "area 60; preamble 0 from 0; start 2; write ordered 4/0 before 0/8; write ordered 0/8 before 4/0;
    write ordered 4/0 before 4/0; finish",
    // 6, 7 and 9 before it.
    "area 60; preamble 0 from 0; start 2; write record 09 00 00 00 08 00 00 00 08 00 00 00;
    write record 08 01 00 00 08 00 00 00 08 00 00 00;
    write record 07 00 00 00 08 00 00 00 08 00 00 00; write ordered 121/8 before 121/8;
    write ordered 120/8 before 120/9; write ordered 0/129 before 0/8; write ordered 128/8 before 128/8;
    write ordered 120/8 before 120/8; write fence; finish",
    // 2 before it.
    "area 65536; preamble 65509 from 3; start 2; write ordered 0/8 before 0/8;
    write ordered 0/8 before 8/8; finish",
    // 15 behind it.
    "area 11; preamble 0 from 0; start 2; write ordered 0/8 before 0/8; write ordered 0/8 before 8/8;
    write ordered 4/0 before 0/8; finish",
    // Behind a closing: the trailer stays, and the next record takes its place.
    "area 60; preamble 0 from 0; start 2; write store 0/8; finish; write ordered 0/8 before 0/8;
    finish; write ordered 0/8 before 8/8; finish",
    // Writers of any numbers.
    "area 60; writer 0 0 0 0; write ordered 0/0 before 0/0; write ordered 0/1 before 0/1;
    writer 65 0 0 0; write ordered 4152/8 before 4159/1; write ordered 4152/8 before 4160/0;
    writer 1024 0 0 0; write ordered 65535/1 before 65535/1; write ordered 65534/1 before 65535/1;
    writer 65535 0 0 0; write ordered 65535/65535 before 65535/65535;
    write ordered 0/65535 before 65534/1; write ordered 65534/65535 before 65535/1;
    write ordered 65535/65535 before 0/65535; writer 2 4294967295 65535 0;
    write ordered 0/8 before 0/8; writer 2 0 5459 0; write ordered 0/8 before 0/8;
    write ordered 0/8 before 8/8; writer 2 0 5460 0; write ordered 0/8 before 0/8",
];

// Records: every kind of event, every kind that is unknown, and every field set.

fn records() -> Vec<Case> {
    let mut cases = vec![kinds()];
    for kind in Event::STORE..=Event::ORDERED {
        cases.push(fields(kind));
    }
    cases
}

/// The unknown kinds that a call can have, with nothing else wrong, between two events.
fn kinds() -> Case {
    let mut made = case("writer records", "area 60; preamble 3 from 1; start 2");
    let fence = record(Event::FENCE);
    made.calls.push(Call::Write(fence));
    let unknown = (0..64).filter(|kind| !(Event::STORE..=Event::ORDERED).contains(kind));
    made.calls
        .extend(unknown.map(|kind| Call::Write(record(kind))));
    made.calls.extend([Call::Write(fence), Call::Finish]);
    made
}

/// A record of this kind, then with each of its bytes but the kind set, and then as before.
fn fields(kind: u8) -> Case {
    let start = "area 300; preamble 2 from 7; start 2; write begin";
    let mut made = case("writer records", start);
    let good = record(kind);
    made.calls.push(Call::Write(good));
    for at in 1..good.len() {
        let mut set = good;
        set[at] ^= 0x80;
        made.calls.push(Call::Write(set));
    }
    made.calls.push(Call::Write(good));
    let ends = case("writer records", &repeat("write end", 5));
    made.calls.extend(ends.calls);
    made.calls.push(Call::Finish);
    made
}

/// A record of this kind with the fields that it has; an unknown kind has none.
fn record(kind: u8) -> [u8; 12] {
    let (a, b, nothing) = (Range::new(5, 9), Range::new(64, 3), Range::new(0, 0));
    let (a, b) = match kind {
        Event::STORE | Event::WRITE_BACK | Event::LOG | Event::PERSISTED => (a, nothing),
        Event::ORDERED => (a, b),
        _ => (nothing, nothing),
    };
    raw_record(kind, 0, a, b, 0xfe00 + u16::from(kind))
}
