//! Orders between ranges that share a byte, or touch, or have none: calls written by hand, and the
//! runs of the corpus. Calls are parted by semicolons, and the site of an event is its place in the
//! run.

use super::written::case;
use super::Case;
use crate::corpus::shared;

pub(super) fn cases() -> Vec<Case> {
    let mut cases: Vec<Case> = WRITTEN.iter().map(|run| case("shared", run)).collect();
    for run in shared::given_singly() {
        let calls = format!("fresh {}; {}; close", run.lines, run.events());
        cases.push(case("shared of the corpus", &calls));
    }
    cases
}

/// Runs with bytes and exposures asked, and closings.
const WRITTEN: [&str; 16] = [
    // Ranges that touch, and ranges that share one byte.
    "fresh 2; store 0/8; store 8/8; ordered 0/8 before 8/8; ordered 8/8 before 0/8;
    ordered 0/8 before 7/8; ordered 7/8 before 0/8; ordered 7/1 before 8/1; close",
    // The same at a line's edge.
    "fresh 2; store 56/16; ordered 56/8 before 64/8; ordered 56/8 before 63/9;
    ordered 56/9 before 64/8; ordered 64/8 before 56/8; ordered 64/8 before 56/9;
    ordered 63/1 before 63/1; ordered 63/1 before 64/1; ask 63; close",
    // One range inside the other.
    "fresh 2; ordered 0/16 before 0/8; ordered 0/16 before 4/8; ordered 0/16 before 8/8;
    ordered 0/8 before 0/16; ordered 4/8 before 0/16; ordered 8/8 before 0/16;
    ordered 0/16 before 16/8; ordered 16/8 before 0/16; close",
    // The same range, stored to or not.
    "fresh 2; ordered 5/1 before 5/1; ordered 8/8 before 8/8; ordered 64/64 before 64/64;
    ordered 0/128 before 0/128; store 0/128; ordered 5/1 before 5/1; ordered 8/8 before 8/8;
    ordered 64/64 before 64/64; ordered 0/128 before 0/128; close",
    // The last byte of one line.
    "fresh 1; ordered 56/8 before 63/1; ordered 63/1 before 56/8; ordered 63/1 before 63/1;
    ordered 56/7 before 63/1; ordered 63/1 before 56/7; ordered 0/64 before 0/64;
    ordered 63/2 before 63/1; ordered 63/1 before 63/2; close",
    // The last byte of 64 lines.
    "fresh 64; ordered 4088/8 before 4095/1; ordered 4095/1 before 4095/1;
    ordered 0/4096 before 0/4096; ordered 0/4096 before 4095/1; ordered 0/4095 before 4095/1;
    ordered 4095/1 before 0/4095; ordered 4095/1 before 4095/2; ordered 4096/1 before 4096/1;
    ordered 4096/0 before 0/4096; ordered 0/4096 before 4096/0; close",
    // No bytes inside the other range, at its edges, and twice at one address.
    "fresh 2; store 0/16; ordered 4/0 before 0/16; ordered 0/16 before 4/0; ordered 0/0 before 0/16;
    ordered 0/16 before 0/0; ordered 16/0 before 0/16; ordered 0/16 before 16/0;
    ordered 4/0 before 4/0; ordered 4/1 before 0/16; ordered 0/16 before 4/1; close",
    // 9 comes first.
    "fresh 2; ordered 120/9 before 120/8; ordered 120/8 before 120/9; ordered 121/8 before 121/8;
    ordered 128/8 before 128/8; ordered 0/129 before 0/1; ordered 65535/65535 before 65535/65535;
    ordered 129/0 before 0/8; ordered 129/0 before 129/0; ordered 120/8 before 120/8;
    ordered 127/1 before 120/8; ordered 128/0 before 120/8; ordered 128/0 before 128/0; close",
    // 10 comes behind it.
    "fresh 2; fences 65533; store 0/8; ordered 0/8 before 0/8; persisted 0/8;
    ordered 0/8 before 0/8; ordered 0/8 before 8/8; ordered 0/8 before 7/8; ordered 4/0 before 0/8;
    ordered 0/8 before 4/0; ordered 0/8 before 121/8; ordered 121/8 before 121/8; fence; ask 0;
    close",
    // Between events refused by 11 and 12.
    "fresh 2; end; ordered 0/8 before 4/8; log 0/8; ordered 0/8 before 4/8; begin; begin; begin;
    begin; begin; begin; begin; begin; ordered 0/8 before 4/8; begin; ordered 0/8 before 4/8; close;
    end; end; end; end; end; end; end; ordered 0/8 before 4/8; end; end; close",
    // The run goes on, and then the same events without the refused ones.
    "fresh 2; store 0/8; ordered 0/8 before 0/8; ask 0; write-back 0/8; ordered 0/4 before 3/1;
    fence; ask 0; exposure; ordered 7/1 before 0/8; store 64/8; ordered 0/8 before 64/8;
    ordered 64/8 before 0/8; ordered 64/8 before 71/1; persisted 64/8; close;
    ordered 0/128 before 64/1; close; exposure; ask 64",
    "fresh 2; store 0/8; ask 0; write-back 0/8; fence; ask 0; exposure; store 64/8;
    ordered 0/8 before 64/8; ordered 64/8 before 0/8; persisted 64/8; close; exposure; ask 64",
    // Transactions.
    "fresh 2; begin; log 0/8; store 0/8; ordered 0/8 before 0/8; close; ordered 0/4 before 4/4;
    write-back 0/8; fence; ordered 0/8 before 0/8; end; ordered 0/8 before 0/8; begin;
    ordered 0/8 before 1/1; end; close",
    // A refused window.
    "fresh 0; ordered 0/64 before 63/1; ordered 64/1 before 64/1; ordered 0/63 before 63/1; close",
    // Nothing else is given.
    "fresh 2; ordered 0/8 before 0/8; exposure; close; ask 0; ordered 0/8 before 0/8; close",
    // A torn store.
    "fresh 2; store 0/16; ordered 0/16 before 0/16; ordered 0/8 before 8/8; ordered 0/9 before 8/8;
    ordered 0/7 before 7/9; ordered 7/9 before 0/7; ordered 0/4 before 4/4; close",
];
