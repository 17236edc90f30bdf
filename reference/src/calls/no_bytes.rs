//! Ranges of no bytes: calls written by hand, and the runs of the corpus. Calls are parted by
//! semicolons, and the site of an event is its place in the run.

use super::written::case;
use super::Case;
use crate::corpus::no_bytes;

pub(super) fn cases() -> Vec<Case> {
    let mut cases: Vec<Case> = WRITTEN.iter().map(|run| case("no bytes", run)).collect();
    for run in no_bytes::given_singly() {
        let calls = format!("fresh {}; {}; close", run.lines, run.events());
        cases.push(case("no bytes of the corpus", &calls));
    }
    cases
}

/// Runs with bytes and exposures asked, and closings.
const WRITTEN: [&str; 13] = [
    // Stores of no bytes alone.
    "fresh 2; ask 0; store 0/0; ask 0; store 63/0; ask 62; ask 63; store 64/0; ask 63; ask 64;
    store 128/0; ask 127; ask 128; fence; ask 0; exposure; close",
    // Stores of no bytes beside a stored byte.
    "fresh 2; store 0/8; fence; store 4/0; store 0/0; store 8/0; ask 0; ask 4; ask 7; ask 8;
    write-back 0/8; store 4/0; fence; ask 0; ask 4; ask 7; exposure; store 4/0; ask 4; exposure;
    fence; ask 4; close",
    // Write-backs of no bytes.
    "fresh 2; store 60/8; write-back 60/0; write-back 64/0; write-back 128/0; fence; ask 60;
    ask 63; ask 64; ask 67; exposure; persisted 60/8; write-back 63/1; write-back 64/0; fence;
    ask 63; ask 64; exposure; write-back 63/0; write-back 63/1; write-back 64/1; fence; ask 63;
    ask 64; exposure; close",
    // A store of no bytes between a write-back and a fence.
    "fresh 1; store 0/8; write-back 0/8; store 0/0; store 64/0; fence; ask 0; ask 7; exposure;
    persisted 0/64; write-back 0/8; store 0/0; write-back 0/8; fence; ask 0; exposure; close",
    // The end of 64 lines.
    "fresh 64; store 4096/0; write-back 4096/0; store 4088/8; store 4096/0; ask 4095; ask 4096;
    persisted 4096/0; ordered 4088/8 before 4096/0; ordered 4096/0 before 4088/8;
    ordered 4096/0 before 4096/0; store 4097/0; write-back 4097/0; persisted 4097/0;
    ordered 4096/0 before 4097/0; ordered 4097/0 before 4096/0; log 4096/0; log 4097/0;
    store 65535/0; begin; log 4096/0; log 65535/0; end; persisted 4088/8; write-back 4095/1;
    write-back 4096/0; fence; ask 4088; ask 4095; exposure; close",
    // The end of one line.
    "fresh 1; store 64/0; store 65/0; ask 63; ask 64; write-back 64/0; persisted 64/0;
    ordered 63/1 before 64/0; close",
    // A refused window.
    "fresh 65; store 64/0; store 65/0; persisted 65/0; persisted 4096/0; ask 64; close",
    // Transactions.
    "fresh 2; begin; store 0/0; close; end; store 0/8; begin; store 4/0; end; begin; log 0/0;
    store 0/8; store 4/0; log 0/0; end; begin; begin; log 0/8; store 0/8; end; store 0/0;
    write-back 0/8; fence; log 0/0; end; log 0/0; end; close",
    // Mean exposure.
    "fresh 2; store 0/0; exposure; write-back 0/0; exposure; fence; exposure; store 0/3; fence;
    store 0/0; store 2/0; write-back 0/64; store 1/0; fence; exposure; store 64/2; store 64/0;
    write-back 65/0; fence; exposure; fence; write-back 65/1; fence; exposure; store 0/0;
    store 65/0; exposure; store 65/1; exposure; close",
    // Orders.
    "fresh 2; store 64/8; store 0/8; ordered 0/8 before 64/8; ordered 0/0 before 64/8;
    ordered 8/0 before 64/8; ordered 0/8 before 64/0; ordered 0/8 before 68/0;
    ordered 4/0 before 4/0; persisted 4/0; persisted 0/1; ask 4; close",
    // A torn store.
    "fresh 2; store 0/16; store 8/0; ordered 0/8 before 8/8; ask 7; ask 8; write-back 8/0; fence;
    persisted 0/16; write-back 8/1; store 4/0; fence; persisted 0/16; ask 15; exposure; close",
    // Eight transactions open.
    "fresh 2; begin; begin; begin; begin; begin; begin; begin; begin; store 0/0; log 0/0; begin;
    log 129/0; close; end; end; end; end; end; end; end; store 128/0; end; close",
    // The last events.
    "fresh 2; fences 65533; store 128/0; store 0/0; store 0/0; write-back 0/0; persisted 0/0;
    ordered 0/0 before 0/0; log 0/0; store 129/0; log 129/0; ask 0; close",
];
