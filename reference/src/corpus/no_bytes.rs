//! Ranges of no bytes, in events of every kind that has a range.

use super::refused::{everywhere, GOOD};
use super::run::Run;
use super::runs::with_range;
use super::{records, Cases};
use crate::event::LINE;
use crate::trace;

pub(super) fn add(cases: &mut Cases) {
    for run in runs() {
        cases.run(&format!("no-bytes/{}", run.name), run.lines, &run.events());
    }
    cases.run("no-bytes/11-log-behind-an-end", 2, "begin; end; log 64/0");
    one_use(cases);
    past(cases);
    refused_everywhere(cases);
    inserted(cases);
}

/// All runs of the group that have their answers beside them.
pub fn runs() -> Vec<Run> {
    let mut runs = by_hand();
    for (lines, addresses) in PLACES {
        let at = |&address: &u16| at(lines, address);
        runs.extend(addresses.iter().flat_map(at));
    }
    runs
}

/// Those of them that the calls file has too: the ones by hand, and at some edges.
pub fn given_singly() -> Vec<Run> {
    let edges = [(1, 64), (2, 64), (64, 4_096)];
    let mut runs = by_hand();
    runs.extend(
        edges
            .into_iter()
            .flat_map(|(lines, address)| at(lines, address)),
    );
    runs
}

/// The runs with a range of no bytes at this address.
fn at(lines: u16, address: u16) -> [Run; 2] {
    [every_use(lines, address), over_stored_bytes(lines, address)]
}

/// The runs whose answers are worked out by hand; they come first.
pub fn by_hand() -> Vec<Run> {
    let run = |&(name, lines, script): &(&str, u16, &str)| Run::new(name, lines, script);
    BY_HAND.iter().map(run).collect()
}

const BY_HAND: [(&str, u16, &str); 61] = [
    // Stores: no line is stored to, and no byte has another last store.
    (
        "store-then-clean",
        2,
        "store 0/0; write-back 0/8; expect clean 0 0 0 0; store 4/0; write-back 0/8;
        expect clean 0 0 0 0",
    ),
    (
        "store-at-a-line-edge-then-clean",
        2,
        "store 64/0; store 63/0; write-back 0/128; expect clean 0 0 0 0; write-back 64/1;
        expect clean 64 0 0 0",
    ),
    (
        "store-then-written-twice",
        2,
        "store 0/8; write-back 0/8; store 4/0; write-back 0/8; expect written-twice 0 0 0 0",
    ),
    (
        "store-beside-a-stored-line",
        2,
        "store 64/8; store 64/0; store 63/0; write-back 0/128; expect clean 0 0 0 0;
        write-back 64/8; expect written-twice 64 0 0 0",
    ),
    (
        "store-does-not-reopen",
        2,
        "store 0/8; write-back 0/8; store 0/0; fence; persisted 0/8; expect holds",
    ),
    (
        "store-inside-does-not-reopen",
        2,
        "store 0/8; write-back 0/8; store 4/0; fence; persisted 0/8; expect holds; store 4/0;
        persisted 0/8; expect holds; store 0/0; store 8/0; fence; persisted 0/64; expect holds",
    ),
    (
        "store-alone",
        2,
        "store 0/0; persisted 0/8; expect holds; persisted 0/128; expect holds; fence;
        persisted 0/8; expect holds",
    ),
    (
        "store-leaves-the-last-store",
        2,
        "store 0/8; store 4/0; persisted 0/8; expect lost 0 0 3 1; persisted 4/4;
        expect lost 4 0 4 1",
    ),
    (
        "store-has-a-number",
        2,
        "store 0/0; store 0/0; store 0/8; persisted 0/8; expect lost 0 0 4 3",
    ),
    (
        "store-at-the-window-end",
        2,
        "store 128/0; store 120/8; store 128/0; write-back 128/0; persisted 120/8;
        expect lost 120 0 5 2; write-back 64/64; store 128/0; fence; persisted 120/8; expect holds;
        persisted 128/0; expect holds",
    ),
    (
        "store-between-stores",
        2,
        "store 0/8; store 0/0; store 8/8; ordered 0/8 before 8/8; expect holds;
        ordered 8/8 before 0/8; expect out-of-order 8 0 1 3",
    ),
    (
        "store-not-in-order",
        2,
        "store 0/0; store 64/8; ordered 0/8 before 64/8; expect holds; ordered 64/8 before 0/8;
        expect holds; persisted 0/64; expect holds",
    ),
    (
        "store-not-kept",
        2,
        "store 64/0; store 0/8; ordered 0/8 before 64/8; expect holds",
    ),
    // Write-backs: no line is written back, and there is no warning.
    (
        "write-back-closes-nothing",
        2,
        "store 0/8; write-back 0/0; fence; persisted 0/8; expect lost 0 0 4 1",
    ),
    (
        "write-backs-around-close-nothing",
        2,
        "store 0/8; write-back 4/0; write-back 8/0; write-back 63/0; write-back 64/0; fence;
        persisted 0/8; expect lost 0 0 7 1",
    ),
    (
        "write-back-is-never-clean",
        2,
        "write-back 0/0; write-back 63/0; write-back 64/0; write-back 128/0; fence; write-back 0/1;
        expect clean 0 0 0 0",
    ),
    (
        "write-back-is-never-twice",
        2,
        "store 0/8; write-back 0/0; write-back 0/8; write-back 0/0; write-back 4/0; write-back 0/8;
        expect written-twice 0 0 0 0; write-back 8/0",
    ),
    (
        "write-back-is-no-first-one",
        2,
        "store 0/8; write-back 4/0; write-back 0/8; fence; persisted 0/8; expect holds",
    ),
    (
        "write-back-behind-another",
        2,
        "store 0/8; write-back 0/8; write-back 0/0; fence; persisted 0/8; expect holds",
    ),
    (
        "write-back-behind-a-later-store",
        2,
        "store 0/8; write-back 0/8; store 0/8; write-back 0/0; fence; persisted 0/8;
        expect lost 0 0 6 3",
    ),
    (
        "write-back-of-the-next-line",
        2,
        "store 0/8; store 64/8; write-back 0/8; write-back 64/0; fence; persisted 0/8; expect holds;
        persisted 64/8; expect lost 64 0 7 2; write-back 64/8; fence; persisted 0/128;
        expect holds",
    ),
    (
        "write-back-does-not-order",
        2,
        "store 0/8; write-back 0/0; fence; store 64/8; ordered 0/8 before 64/8;
        expect out-of-order 0 64 4 1",
    ),
    (
        "store-leaves-the-order",
        2,
        "store 0/8; write-back 0/8; store 0/0; fence; store 64/8; ordered 0/8 before 64/8;
        expect holds",
    ),
    // Torn stores: no piece, so no word of one.
    (
        "inside-a-torn-store",
        2,
        "store 0/16; store 8/0; ordered 0/8 before 8/8; expect out-of-order 0 8 1 1;
        ordered 8/8 before 0/8; expect out-of-order 8 0 1 1; ordered 0/4 before 4/4; expect holds;
        persisted 8/8; expect lost 8 0 6 1",
    ),
    (
        "around-a-torn-store",
        2,
        "store 4/0; store 0/16; store 12/0; ordered 0/8 before 8/8; expect out-of-order 0 8 2 2;
        ordered 12/4 before 0/4; expect out-of-order 12 0 2 2",
    ),
    (
        "between-torn-stores",
        2,
        "store 0/16; store 4/0; store 8/16; ordered 0/8 before 8/8; expect holds;
        ordered 8/8 before 0/8; expect out-of-order 8 0 1 3; ordered 8/8 before 16/8;
        expect out-of-order 8 16 3 3",
    ),
    (
        "inside-a-store-across-lines",
        2,
        "store 60/8; store 64/0; write-back 64/0; fence; ordered 60/4 before 64/4;
        expect out-of-order 60 64 1 1; ordered 64/4 before 60/4; expect out-of-order 64 60 1 1;
        persisted 60/8; expect lost 60 0 7 1",
    ),
    (
        "torn-and-written-back",
        2,
        "store 0/16; write-back 0/1; store 8/0; fence; persisted 0/16; expect holds;
        ordered 0/8 before 8/8; expect out-of-order 0 8 1 1; ordered 0/8 before 8/0; expect holds",
    ),
    // Persisted.
    (
        "persisted-over-stored-bytes",
        2,
        "store 0/128; persisted 0/0; expect holds; persisted 63/0; expect holds; persisted 64/0;
        expect holds; persisted 127/0; expect holds; persisted 128/0; expect holds; persisted 0/1;
        expect lost 0 0 7 1",
    ),
    (
        "persisted-fresh",
        2,
        "persisted 0/0; expect holds; persisted 64/0; expect holds; persisted 128/0; expect holds",
    ),
    // Ordered, with stores that would be out of order if the range had bytes.
    (
        "ordered-a",
        2,
        "store 64/8; store 0/8; ordered 0/8 before 64/8; expect out-of-order 0 64 1 2;
        ordered 0/0 before 64/8; expect holds; ordered 4/0 before 64/8; expect holds;
        ordered 8/0 before 64/8; expect holds; ordered 63/0 before 64/8; expect holds",
    ),
    (
        "ordered-a-inside-b",
        2,
        "store 64/16; ordered 64/8 before 72/8; expect out-of-order 64 72 1 1;
        ordered 64/0 before 64/16; expect holds; ordered 68/0 before 64/16; expect holds;
        ordered 72/0 before 64/16; expect holds; ordered 80/0 before 64/16; expect holds;
        ordered 128/0 before 0/128; expect holds",
    ),
    (
        "ordered-b",
        2,
        "store 64/8; store 0/8; ordered 0/8 before 64/8; expect out-of-order 0 64 1 2;
        ordered 0/8 before 64/0; expect holds; ordered 0/8 before 68/0; expect holds;
        ordered 0/8 before 72/0; expect holds; ordered 0/8 before 63/0; expect holds",
    ),
    (
        "ordered-b-inside-a",
        2,
        "store 0/16; ordered 0/8 before 8/8; expect out-of-order 0 8 1 1;
        ordered 0/16 before 0/0; expect holds; ordered 0/16 before 4/0; expect holds;
        ordered 0/16 before 8/0; expect holds; ordered 0/16 before 16/0; expect holds;
        ordered 0/128 before 128/0; expect holds",
    ),
    (
        "ordered-a-and-b",
        2,
        "store 64/8; store 0/8; ordered 0/0 before 64/0; expect holds; ordered 64/0 before 0/0;
        expect holds; ordered 0/0 before 0/0; expect holds; ordered 4/0 before 68/0; expect holds;
        ordered 128/0 before 128/0; expect holds; ordered 128/0 before 0/0; expect holds",
    ),
    (
        "ordered-between-words",
        2,
        "store 0/16; ordered 0/8 before 8/8; expect out-of-order 0 8 1 1; ordered 8/0 before 8/8;
        expect holds; ordered 0/8 before 8/0; expect holds; ordered 8/0 before 8/0; expect holds;
        ordered 8/8 before 0/8; expect out-of-order 8 0 1 1",
    ),
    (
        "ordered-in-one-line",
        2,
        "store 8/8; store 0/8; ordered 0/8 before 8/8; expect out-of-order 0 8 1 2;
        ordered 0/0 before 8/8; expect holds; ordered 8/0 before 8/8; expect holds;
        ordered 0/8 before 8/0; expect holds",
    ),
    (
        "ordered-fresh",
        2,
        "ordered 0/0 before 0/0; expect holds; ordered 0/0 before 0/128; expect holds;
        ordered 0/128 before 64/0; expect holds; ordered 128/0 before 128/0; expect holds",
    ),
    // Ends: such a store does not make a transaction non-empty.
    (
        "end-empty",
        2,
        "begin; store 0/0; end; expect empty 0 0 0 0",
    ),
    (
        "end-empty-after-many",
        2,
        "begin; store 0/0; store 64/0; store 63/0; store 128/0; end; expect empty 0 0 0 0",
    ),
    (
        "end-empty-nested",
        2,
        "begin; begin; store 0/0; end; store 64/0; end; expect empty 0 0 0 0",
    ),
    (
        "end-empty-behind-a-store",
        2,
        "store 0/8; begin; store 0/0; end; expect empty 0 0 0 0; persisted 0/8;
        expect lost 0 0 5 1",
    ),
    (
        "end-empty-behind-no-bytes",
        2,
        "store 0/0; begin; end; expect empty 0 0 0 0; store 0/0; begin; begin; end; end;
        expect empty 0 0 0 0",
    ),
    (
        "end-empty-with-every-kind",
        2,
        "begin; store 0/0; write-back 0/0; fence; log 0/0; persisted 0/0; expect holds;
        ordered 0/0 before 0/0; expect holds; end; expect empty 0 0 0 0",
    ),
    (
        "end-empty-at-depth-8",
        2,
        "begin; begin; begin; begin; begin; begin; begin; begin; store 0/0; end; end; end; end; end;
        end; end; store 0/0; end; expect empty 0 0 0 0",
    ),
    (
        "end-lost",
        2,
        "begin; log 0/8; store 0/8; store 4/0; end; expect lost 0 0 5 3",
    ),
    (
        "end-holds",
        2,
        "begin; log 0/8; store 0/0; store 0/8; write-back 0/8; fence; store 8/0; end; expect holds",
    ),
    (
        "end-lost-after-no-bytes-written-back",
        2,
        "begin; log 0/8; store 0/8; write-back 0/0; fence; end; expect lost 0 0 6 3",
    ),
    (
        "end-holds-nested",
        2,
        "begin; begin; store 0/0; end; log 0/8; store 0/8; begin; store 4/0; end; write-back 0/8;
        fence; end; expect holds",
    ),
    (
        "end-lost-inner-store",
        2,
        "begin; begin; log 0/8; store 0/8; end; store 0/0; end; expect lost 0 0 7 4",
    ),
    (
        "end-of-the-second-empty",
        2,
        "begin; log 0/8; store 0/8; write-back 0/8; fence; end; expect holds; begin; store 0/0;
        end; expect empty 0 0 0 0",
    ),
    (
        "end-of-the-second-lost",
        2,
        "begin; store 0/0; end; expect empty 0 0 0 0; begin; log 0/8; store 0/8; end;
        expect lost 0 0 7 6",
    ),
    // Logs: nothing is logged, no store of no bytes is unlogged, and there is no warning.
    (
        "store-is-never-unlogged",
        2,
        "begin; store 0/0; store 63/0; store 128/0; log 0/8; store 8/0; store 4/0; end;
        expect empty 0 0 0 0",
    ),
    (
        "unlogged-beside-no-bytes",
        2,
        "begin; store 4/0; store 0/8; expect unlogged 0 0 0 0; end; expect lost 0 0 4 3",
    ),
    (
        "log-is-never-twice",
        2,
        "begin; log 0/0; log 0/0; log 0/8; log 4/0; log 8/0; log 0/8; expect logged-twice 0 0 0 0;
        end; expect empty 0 0 0 0",
    ),
    (
        "log-logs-nothing",
        2,
        "begin; log 0/0; store 0/8; expect unlogged 0 0 0 0; log 8/0; log 4/0; store 4/8;
        expect unlogged 4 0 0 0; end; expect lost 0 0 7 3",
    ),
    (
        "log-leaves-the-marks",
        2,
        "begin; log 0/8; begin; log 0/0; end; log 8/0; store 0/8; log 128/0; end;
        expect lost 0 0 9 7",
    ),
    // Refused: no transaction is open, or one stays open.
    ("11-log-first", 2, "log 0/0; refused 11 at 1"),
    ("11-log-at-the-window-end", 2, "store 0/0; log 128/0; refused 11 at 2"),
    ("9-before-11-log", 2, "store 0/0; log 129/0; refused 9 at 2"),
    ("13-open-behind-no-bytes", 2, "begin; store 0/0; log 0/0; refused 13 at 0"),
];

/// Addresses at which a range of no bytes is taken, for each count of lines: the first byte, the
/// middle of a line, the edges of lines, and the window's size.
const PLACES: [(u16, &[u16]); 3] = [
    (1, &[0, 20, 63, 64]),
    (2, &[64, 127, 128]),
    (64, &[0, 63, 64, 100, 4_095, 4_096]),
];

/// Every kind of event with a range of no bytes at this address, in a window of which no byte is
/// stored to.
fn every_use(lines: u16, address: u16) -> Run {
    let script =
        "persisted E; expect holds; ordered E before E; expect holds; ordered E before 0/8;
        expect holds; ordered 0/8 before E; expect holds; write-back E; begin; log E; log E;
        store E; write-back E; persisted E; expect holds; fence; end; expect empty 0 0 0 0; store E;
        persisted 0/64; expect holds; write-back 0/64; expect clean 0 0 0 0";
    let script = script.replace('E', &format!("{address}/0"));
    Run::new(&format!("uses-{lines}-{address}"), lines, &script)
}

/// The same around a store of every byte of the window.
fn over_stored_bytes(lines: u16, address: u16) -> Run {
    let window = usize::from(lines) * LINE;
    let script = "store W; store E; write-back E; fence; persisted E; expect holds; persisted W;
        expect lost 0 0 6 1; ordered E before W; expect holds; ordered W before E; expect holds;
        write-back W; store E; fence; persisted W; expect holds; write-back E; write-back W;
        expect written-twice 0 0 0 0";
    let script = script.replace('E', &format!("{address}/0"));
    let script = script.replace('W', &format!("0/{window}"));
    Run::new(&format!("stored-{lines}-{address}"), lines, &script)
}

/// One event of each kind that has a range, at an address that is taken.
fn one_use(cases: &mut Cases) {
    for (lines, address) in [(1, 0), (1, 63), (1, 64), (64, 64), (64, 4_095), (64, 4_096)] {
        for (word, events) in with_range(&format!("{address}/0")) {
            let name = format!("no-bytes/{lines}-{address}-{word}");
            cases.run(&name, lines, &events);
        }
    }
}

/// Addresses past the window: refused by 9.
fn past(cases: &mut Cases) {
    for (lines, address) in [(1, 65), (1, 65_535), (64, 4_097), (64, 65_535)] {
        for (word, events) in with_range(&format!("{address}/0")) {
            let name = format!("no-bytes/{lines}-{address}-{word}");
            cases.run(&name, lines, &events);
        }
    }
    // One kind after another.
    let more = [
        (1, 128),
        (1, 4_096),
        (2, 129),
        (2, 192),
        (63, 4_033),
        (63, 4_096),
        (64, 32_768),
    ];
    for (at, (lines, address)) in more.into_iter().enumerate() {
        let (word, events) = &with_range(&format!("{address}/0"))[at];
        let name = format!("no-bytes/{lines}-{address}-{word}");
        cases.run(&name, lines, events);
    }
}

/// The event of each kind with a range at this address; its other range has bytes.
fn events_at(address: u16) -> [(&'static str, String); 7] {
    let range = format!("{address}/0");
    [
        ("store", format!("store {range}")),
        ("write-back", format!("write-back {range}")),
        ("log", format!("log {range}")),
        ("persisted", format!("persisted {range}")),
        ("ordered-a", format!("ordered {range} before 0/8")),
        ("ordered-b", format!("ordered 0/8 before {range}")),
        ("ordered-ab", format!("ordered {range} before {range}")),
    ]
}

/// A record with a range past the window in place of the first, a middle and the last one.
fn refused_everywhere(cases: &mut Cases) {
    for (word, event) in events_at(129) {
        everywhere(cases, &format!("no-bytes/9-{word}"), records(&event)[0]);
    }
}

/// A record with a range of no bytes in front of the first record, of a middle one, and behind the
/// last one.
fn inserted(cases: &mut Cases) {
    for (word, event) in events_at(4) {
        for (place, at) in [("first", 0), ("middle", 4), ("last", 7)] {
            let mut all = records(GOOD);
            all.insert(at, records(&event)[0]);
            let name = format!("no-bytes/inserted-{word}-{place}");
            cases.add(&name, trace::assemble(2, &[], &all));
        }
    }
}
