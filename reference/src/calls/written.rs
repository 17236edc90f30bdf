//! Calls written by hand: at the limits, the request's small runs, persist intervals and the events
//! that they name, runs of many events, and torn stores. Calls are parted by semicolons, and the site
//! of an event is its place in the run.

use super::{Call, Case};
use crate::corpus::runs::{SMALL, WHOLE};
use crate::corpus::torn;
use std::collections::BTreeSet;

pub(super) fn cases() -> Vec<Case> {
    let mut cases = Vec::new();
    let mut add = |group, runs: Vec<String>| {
        cases.extend(runs.iter().map(|run| case(group, run)));
    };
    add("limits", limits());
    add("small", small());
    add("intervals", INTERVALS.map(String::from).to_vec());
    add("events of intervals", EVENTS.map(String::from).to_vec());
    add(
        "late events of intervals",
        LATE_EVENTS.map(String::from).to_vec(),
    );
    add("long", long());
    add("torn", torn());
    cases
}

pub(super) fn case(group: &'static str, run: &str) -> Case {
    let calls = run.split(';').enumerate().map(|(at, words)| {
        let call = Call::parse(at, words);
        call.unwrap_or_else(|mistake| panic!("{run}: {mistake}"))
    });
    Case {
        group,
        calls: calls.collect(),
    }
}

/// The same call several times.
pub(super) fn repeat(call: &str, times: usize) -> String {
    vec![call; times].join("; ")
}

// Limits.

fn limits() -> Vec<String> {
    let mut runs = vec![RANGES.to_string(), LENGTHS.to_string()];
    runs.extend([1, 2, 63, 64].map(last_byte));
    runs.push("fresh 64; store 65535/1; ask 65535".to_string());
    for lines in [0, 65, 65_535] {
        runs.push(format!("fresh {lines}; store 63/1; store 64/1"));
    }
    runs.push(nine_begins());
    runs.extend([LAST_EVENT, REFUSED_BETWEEN, WITHOUT_REFUSED].map(String::from));
    runs
}

const RANGES: &str = "fresh 2; store 120/8; store 121/8; persisted 121/8; ordered 0/8 before 121/8";

const LENGTHS: &str = "fresh 2; store 0/0; write-back 0/0; log 0/0; persisted 0/0; store 200/0;
    ordered 0/0 before 121/8; ordered 121/8 before 0/0; close";

fn last_byte(lines: u16) -> String {
    let (last, past) = (64 * lines - 1, 64 * lines);
    format!("fresh {lines}; store {last}/1; store {past}/1; ask {last}; ask {past}")
}

fn nine_begins() -> String {
    let (begins, ends) = (repeat("begin", 8), repeat("end", 8));
    format!("fresh 2; {begins}; close; begin; {ends}; end; log 0/8; close")
}

const LAST_EVENT: &str = "fresh 64; fences 30000; log 0/8; end; fences 35533; store 0/8;
    persisted 0/8; fence; log 0/8; end; begin; store 4096/1; store 4097/0; store 0/0; close; ask 0";

const REFUSED_BETWEEN: &str = "fresh 2; store 0/8; write-back 0/8; log 0/8; store 127/2; fence;
    persisted 0/8; store 64/8; persisted 64/8; ask 0; close";

const WITHOUT_REFUSED: &str = "fresh 2; store 0/8; write-back 0/8; fence; persisted 0/8;
    store 64/8; persisted 64/8; ask 0; close";

// Small runs.

fn small() -> Vec<String> {
    let mut runs: Vec<String> = Vec::new();
    let some = SMALL.iter().filter(|(_, events)| !events.is_empty());
    runs.extend(some.map(|(_, events)| asked(events)));
    runs.push(asked(WHOLE));
    for range in ["120/8", "121/8"] {
        runs.extend(at_the_end(range).map(|events| asked(&events)));
    }
    for begins in [8, 9] {
        let events = repeat("begin", begins);
        runs.push(asked(&events));
        runs.push(asked(&format!("{events}; {}", repeat("end", 8))));
    }
    runs.push(asked("fences 65534; store 0/8; persisted 0/8; fences 2"));
    runs
}

/// Runs with a range at the end of two lines, or one past it.
fn at_the_end(range: &str) -> [String; 6] {
    [
        format!("store {range}"),
        format!("write-back {range}"),
        format!("persisted {range}"),
        format!("ordered {range} before 0/8; ordered 0/8 before {range}"),
        format!("begin; log {range}; store {range}; end"),
        format!("store {range}; write-back {range}; fence; persisted {range}"),
    ]
}

/// The events from a fresh window of two lines, then the bytes at the edges of their ranges, and a
/// closing.
fn asked(events: &str) -> String {
    let mut run = format!("fresh 2; {events}");
    for byte in edges(&case("small", &run)) {
        run.push_str(&format!("; ask {byte}"));
    }
    run + "; close"
}

/// The first and last bytes of the ranges, and those just outside of them. A range of no bytes has
/// those on both sides of its address.
fn edges(case: &Case) -> BTreeSet<usize> {
    let events = case.calls.iter().filter_map(|call| match call {
        Call::Give(record) => Some(record.event),
        _ => None,
    });
    let ranges = events.flat_map(|event| [event.range_a(), event.range_b()]);
    let bytes = ranges.flatten().flat_map(|range| {
        let (first, end) = (usize::from(range.address), range.end());
        [first.saturating_sub(1), first, end.saturating_sub(1), end]
    });
    bytes.collect()
}

// Intervals, on two lines.

const INTERVALS: [&str; 8] = [
    // Never stored.
    "fresh 2; ask 0; ask 127; write-back 0/128; fence; ask 0; store 8/8; ask 7; ask 8; ask 15;
    ask 16",
    // Stored twice around a write-back and a fence.
    "fresh 2; store 0/8; ask 0; write-back 0/1; ask 0; fence; ask 0; store 4/8; ask 3; ask 4;
    ask 8; fence; fence; ask 4; write-back 63/1; ask 4; fence; ask 3; ask 4",
    // Stored again between the write-back and the fence.
    "fresh 2; store 0/8; write-back 0/8; store 4/4; fence; ask 0; ask 4; write-back 0/8; fence;
    ask 0; ask 4",
    // A write-back before the store.
    "fresh 2; write-back 0/8; store 0/8; fence; ask 0; fence; ask 0",
    // Two write-backs and two fences.
    "fresh 2; fence; store 0/8; write-back 0/8; write-back 0/8; fence; ask 0; write-back 0/8;
    fence; ask 0",
    // Two write-backs, and a store between them.
    "fresh 2; store 0/8; write-back 0/8; store 8/8; write-back 0/8; fence; ask 0; ask 8",
    // A store across two lines.
    "fresh 2; store 60/8; write-back 60/1; fence; ask 63; ask 64; fence; write-back 64/1; fence;
    ask 60; ask 63; ask 64; ask 67; ask 68",
    // A write-back of the other line.
    "fresh 2; store 0/8; write-back 64/64; fence; ask 0",
];

// Events of intervals.

const EVENTS: [&str; 16] = [
    // A second write-back while open, and a third one when closed.
    "fresh 2; store 0/8; ask 0; write-back 0/8; ask 0; write-back 0/8; ask 0; fence; ask 0;
    write-back 0/8; ask 0; fence; ask 0; ask 7; ask 8",
    // Write-backs before the last store.
    "fresh 2; write-back 0/8; store 0/8; ask 0; fence; ask 0; store 4/8; write-back 63/1; store 8/1;
    ask 0; ask 4; ask 8; fence; ask 0; ask 4; ask 8",
    // Stored again after it was closed.
    "fresh 2; store 0/8; write-back 0/8; fence; ask 0; store 0/4; ask 0; ask 4; fence; ask 0;
    write-back 0/1; ask 0; ask 4; fence; ask 0; ask 4; store 0/8; ask 0; ask 4",
    // Write-backs of the neighbouring lines, and one across a border.
    "fresh 3; store 64/8; write-back 0/64; ask 64; write-back 128/64; ask 64; fence; ask 64;
    write-back 63/2; ask 64; fence; ask 63; ask 64; ask 71; ask 72; ask 128",
    // Write-backs from another byte of the line.
    "fresh 2; store 127/1; write-back 64/1; ask 127; store 0/1; write-back 0/128; ask 0; ask 127;
    fence; ask 0; ask 127",
    // A store between the write-back and the fence.
    "fresh 2; store 0/8; write-back 0/8; store 0/8; ask 0; fence; ask 0; fence; write-back 0/8;
    fence; ask 0",
    // Two fences after the write-back.
    "fresh 1; fence; store 8/8; fence; write-back 8/8; begin; fence; ask 8; fence; ask 8; end;
    ask 7; ask 15; ask 16",
    // Two bytes of one line, with other stores and write-backs.
    "fresh 2; store 0/1; write-back 0/1; store 1/1; ask 0; ask 1; write-back 0/2; ask 0; ask 1;
    fence; ask 0; ask 1; store 1/1; write-back 1/1; fence; store 0/1; ask 0; ask 1; write-back 1/1;
    fence; ask 0; ask 1",
    // Stores and write-backs of no bytes.
    "fresh 2; store 0/8; write-back 0/0; write-back 4/0; ask 4; store 4/0; ask 4; write-back 7/1;
    store 0/0; ask 0; write-back 64/0; fence; ask 0; ask 7; store 7/0; ask 7; ask 64",
    // Refused events between, which have no number.
    "fresh 2; end; store 0/8; write-back 121/8; log 0/8; write-back 0/8; store 127/2; ask 0; ask 128;
    end; fence; ask 0; store 129/0; store 0/8; ask 0; close",
    // A refused window.
    "fresh 0; store 64/1; store 63/1; write-back 0/64; fence; ask 63; ask 64",
    // Every kind of event has a number.
    "fresh 2; begin; log 0/8; store 0/8; persisted 0/8; write-back 0/8; ordered 0/8 before 64/8;
    fence; ask 0; end; close",
    // A store across two lines, which are written back one after the other.
    "fresh 2; store 63/2; write-back 64/1; write-back 63/1; ask 63; ask 64; fence; write-back 63/2;
    ask 63; ask 64",
    // The last byte of 64 lines.
    "fresh 64; store 4095/1; fence; write-back 4032/1; fence; ask 4094; ask 4095; ask 4096",
    // Two lines in turn.
    "fresh 2; store 0/8; store 64/8; write-back 64/8; fence; write-back 0/8; ask 0; ask 64; fence;
    ask 0; ask 64",
    // Asked again, with exposures and closings between.
    "fresh 1; store 0/2; write-back 0/1; write-back 0/1; exposure; ask 0; close; ask 0; fence;
    exposure; ask 0; ask 0; close",
];

/// Event numbers above 32,767, up to the last.
const LATE_EVENTS: [&str; 5] = [
    "fresh 2; fences 32766; store 0/8; write-back 0/8; ask 0; fence; ask 0; store 4/8; ask 4;
    fences 7230; write-back 0/1; write-back 0/1; ask 4; fence; ask 0; ask 4",
    // The last event is the fence.
    "fresh 1; fences 65532; store 63/1; write-back 63/1; ask 63; fence; ask 63; store 63/1; ask 63;
    close",
    // The first event, and the last ones.
    "fresh 2; store 0/1; fences 65532; ask 0; write-back 0/1; fence; ask 0; store 0/1; ask 0",
    // The last event is the write-back.
    "fresh 1; fences 65533; store 0/8; write-back 7/1; ask 0; fence; ask 0",
    // The last event is the store.
    "fresh 1; store 0/8; write-back 0/8; fence; fences 65531; store 0/1; ask 0; ask 1;
    write-back 0/8; fence; ask 0",
];

// Many events.

fn long() -> Vec<String> {
    let (begins, nested) = (repeat("begin", 8), NESTED);
    vec![EPOCHS.to_string(), format!("fresh 2; {begins}; {nested}")]
}

/// Intervals that open and close at late epochs, up to the last event.
const EPOCHS: &str = "fresh 1; fences 255; store 0/8; fence; ask 0; write-back 0/8; ask 0; fence;
    ask 0; fences 32510; store 4/8; ask 3; ask 4; write-back 63/1; fence; ask 3; ask 4;
    fences 32756; store 8/8; close; ask 3; ask 4; ask 8; begin; write-back 0/1; fence; ask 7;
    ask 8; close; end; log 0/8; begin; fence; ask 8; close; end; fence; store 0/8; ask 8; close";

/// Behind eight begins: the last event is taken with every transaction open.
const NESTED: &str = "fences 65525; store 64/8; persisted 64/8; begin; end; log 0/8; log 0/0;
    log 129/0; log 128/1; ask 63; ask 64; ask 128; close";

// Torn stores.

fn torn() -> Vec<String> {
    let runs = torn::runs().into_iter();
    runs.map(|run| format!("fresh {}; {}", run.lines, run.events()))
        .collect()
}
