//! Calls of the mean exposure, written by hand. Calls are parted by semicolons, and the site of an
//! event is its place in the run.

use super::written::case;
use super::Case;

pub(super) fn cases() -> Vec<Case> {
    let mut cases: Vec<Case> = FEW.iter().map(|run| case("exposure", run)).collect();
    let whole = [1, 2, 64].map(whole_window);
    cases.extend(whole.iter().map(|run| case("exposure", run)));
    cases.extend(BEHIND_OTHERS.iter().map(|run| case("exposure", run)));
    cases.extend(MANY.iter().map(|run| case("exposure long", run)));
    cases
}

/// Runs of few events.
const FEW: [&str; 22] = [
    // Nothing stored.
    "fresh 2; exposure; write-back 0/128; exposure; fence; exposure; close",
    // Open, written back and not fenced, closed; twice in a row, and further fences.
    "fresh 2; store 0/8; exposure; write-back 0/8; exposure; fence; exposure; exposure; fence;
    write-back 0/8; fence; exposure",
    // One byte: the first of a window, and the last.
    "fresh 1; store 0/1; write-back 0/1; fence; exposure",
    "fresh 2; store 127/1; fence; write-back 127/1; fence; exposure",
    // A fence without a write-back, and a write-back before the store.
    "fresh 1; write-back 0/8; store 0/8; fence; exposure; fence; exposure",
    // A write-back of the other line.
    "fresh 2; store 0/8; write-back 64/8; fence; exposure",
    // Stored again after it was closed: open, and then closed with the new interval.
    "fresh 1; store 0/8; write-back 0/8; fence; exposure; store 0/8; exposure; fence; fence;
    exposure; write-back 0/8; exposure; fence; exposure; ask 0",
    // The first interval is the longer one.
    "fresh 1; store 0/2; fence; fence; fence; write-back 0/1; fence; exposure; store 0/2; exposure;
    write-back 0/1; fence; exposure",
    // Some of the bytes are stored again.
    "fresh 1; store 0/8; write-back 0/8; fence; fence; fence; store 4/8; exposure; fence;
    write-back 0/8; fence; exposure",
    // Stored again between the write-back and the fence.
    "fresh 1; store 0/8; write-back 0/8; store 4/4; fence; exposure; write-back 0/8; fence; exposure",
    // Two write-backs of one store, and a store between two.
    "fresh 1; store 0/8; write-back 0/8; fence; write-back 0/8; fence; exposure; store 8/8;
    write-back 0/8; store 16/8; write-back 0/8; fence; exposure",
    // A store across two lines, of which one is written back.
    "fresh 2; store 60/10; write-back 60/1; fence; exposure; fence; write-back 64/1; fence; exposure",
    // Remainders above 1, one of them one below the divisor.
    "fresh 2; store 0/3; write-back 0/3; fence; exposure; store 64/4; fence; fence; fence; fence;
    fence; write-back 64/4; fence; exposure; fence; store 10/1; fence; fence; write-back 0/64; fence;
    exposure; store 3/1; write-back 0/64; fence; exposure; store 4/1; write-back 0/64; fence; exposure",
    "fresh 1; store 0/7; fence; store 7/1; write-back 0/8; fence; exposure",
    // The quotient is the larger number.
    "fresh 1; store 0/1; fence; fence; store 1/2; fence; fence; write-back 0/3; fence; exposure",
    // The opening epoch is not 0.
    "fresh 2; fence; fence; store 0/8; write-back 0/8; fence; exposure; ask 0",
    // Behind refused events, which change nothing.
    "fresh 2; end; exposure; store 0/8; write-back 0/8; fence; store 127/2; exposure; store 129/0;
    exposure; log 0/8; exposure; write-back 128/1; end; exposure",
    // With transactions open, up to the deepest.
    "fresh 2; begin; exposure; store 0/8; exposure; write-back 0/8; fence; exposure; close; end;
    exposure; close",
    "fresh 1; begin; begin; begin; begin; begin; begin; begin; begin; store 8/2; write-back 8/2;
    fence; begin; exposure; close; end; exposure",
    // The run of a refused window has one line.
    "fresh 65; exposure; store 0/64; store 64/1; write-back 0/64; fence; exposure",
    // The same events, bytes and closings without an exposure, and with exposures between.
    "fresh 2; store 60/8; write-back 60/8; fence; ask 60; persisted 60/8; begin; log 62/4; store 62/4;
    ordered 60/2 before 62/4; ask 62; close; end; write-back 64/1; fence; ask 63; ask 64; close",
    "fresh 2; exposure; store 60/8; exposure; write-back 60/8; exposure; fence; exposure; ask 60;
    exposure; persisted 60/8; exposure; begin; exposure; log 62/4; exposure; store 62/4; exposure;
    ordered 60/2 before 62/4; exposure; ask 62; exposure; close; exposure; end; exposure;
    write-back 64/1; exposure; fence; exposure; ask 63; exposure; ask 64; exposure; close; exposure",
];

/// Every byte of a window of so many lines.
fn whole_window(lines: u16) -> String {
    let bytes = 64 * lines;
    format!(
        "fresh {lines}; store 0/{bytes}; exposure; write-back 0/{bytes}; fence; exposure; fence;
        store 0/1; exposure; fence; write-back 0/{bytes}; fence; exposure"
    )
}

/// Runs behind one whose bytes are all closed: nothing of it is left, and a window of fewer lines
/// has no other bytes.
const BEHIND_OTHERS: [&str; 3] = [
    "fresh 64; exposure; fence; exposure",
    "fresh 1; exposure; store 63/1; write-back 63/1; fence; exposure",
    "fresh 0; exposure; store 5/1; write-back 0/64; fence; exposure",
];

/// Runs of many fences.
const MANY: [&str; 13] = [
    // Opened and closed above 32,767.
    "fresh 1; fences 40000; store 0/8; write-back 0/8; fence; exposure; ask 0",
    // Closed above 32,767.
    "fresh 1; fences 20000; store 0/8; fences 30000; write-back 0/8; fence; exposure; ask 0",
    // Around 32,767.
    "fresh 1; fences 32766; store 0/1; fence; store 8/1; fence; store 16/1; write-back 0/1; fence;
    exposure; ask 0; ask 8; ask 16",
    // A difference above 32,767.
    "fresh 1; store 0/8; fences 40000; write-back 0/8; fence; exposure; store 0/1; exposure;
    write-back 0/1; fence; exposure",
    // A difference of 65,533, the largest, and no event left.
    "fresh 1; store 5/1; fences 65532; write-back 5/1; exposure; fence; exposure; fence; exposure;
    close",
    // The largest sum, 268,423,168.
    "fresh 64; store 0/4096; fences 65532; write-back 0/4096; exposure; fence; exposure; store 0/1;
    exposure; close",
    // One less than 4,096 times 65,532.
    "fresh 64; store 0/4096; fence; store 4095/1; fences 65530; write-back 0/4096; fence; exposure;
    close",
    // Sums of 65,535, 65,536 and 65,537.
    "fresh 64; store 0/4096; fence; store 17/1; fences 14; write-back 0/4096; fence; exposure",
    "fresh 64; store 0/4096; fences 15; write-back 0/4096; fence; exposure",
    "fresh 64; store 0/4095; fences 15; write-back 0/4095; fence; store 4095/1; fences 16;
    write-back 4095/1; fence; exposure",
    // A sum of 81,920, one of 163,840,000, and one of 163,824,001.
    "fresh 64; store 0/4096; fences 19; write-back 0/4096; fence; exposure",
    "fresh 64; store 0/4096; fences 39999; write-back 0/4096; fence; exposure; store 9/1; exposure;
    fences 24000; write-back 0/64; fence; exposure",
    // Lines closed one after another.
    "fresh 3; store 0/190; fences 99; write-back 0/1; fence; exposure; fences 899; write-back 64/1;
    fence; exposure; fences 8999; write-back 128/1; fence; exposure; store 64/128; exposure",
];
