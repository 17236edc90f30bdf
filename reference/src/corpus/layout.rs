//! The layout of the file: lengths, free bytes, and findings areas.

use super::runs::WHOLE;
use super::{records, Cases};
use crate::trace::{self, raw_trailer, MARK, MAX_TRACE, RECORD, TRAILER};

pub(super) fn add(cases: &mut Cases) {
    lengths(cases);
    free_bytes(cases);
    behind_the_trailer(cases);
    areas(cases);
}

fn lengths(cases: &mut Cases) {
    let trailer = raw_trailer(MARK, 0, 0, 2, 0);
    for length in 0..TRAILER {
        let trace = trailer[TRAILER - length..].to_vec();
        cases.add(&format!("length/{length}"), trace);
    }
    cases.add("length/15-start", trailer[..15].to_vec());
    cases.add("length/16", trailer.to_vec());
    cases.add("length/16-zeros", vec![0; 16]);
    for lines in [1, 63, 64] {
        let trace = raw_trailer(MARK, 0, 0, lines, 0).to_vec();
        cases.add(&format!("length/16-lines-{lines}"), trace);
    }
    let free = vec![0x5a; MAX_TRACE - TRAILER];
    cases.add("length/65536-free", trace::assemble(64, &free, &[]));
    cases.add(
        "length/65537-free",
        trace::assemble(64, &[&free[..], &[0]].concat(), &[]),
    );
    cases.add("length/65537-no-trailer", vec![0; MAX_TRACE + 1]);
}

/// Free bytes that look like a trailer, like records or like a whole trace.
fn free_bytes(cases: &mut Cases) {
    let whole = records(WHOLE);
    let inner = trace::assemble(2, &[], &whole);
    let trailer = raw_trailer(MARK, 0, 9, 2, 0);
    let bad_record = [0xff; RECORD];
    let fronts = [
        ("mark", MARK.to_vec()),
        ("trailer", trailer.to_vec()),
        ("trailer-twice", [trailer, trailer].concat()),
        ("bad-trailer", raw_trailer(MARK, 1, 1, 0, 1).to_vec()),
        ("records", whole.concat()),
        ("bad-records", [bad_record, bad_record].concat()),
        ("half-a-record", vec![1, 0, 0, 0, 8, 0]),
        ("trace", inner.clone()),
        ("ones", vec![0xff; 64]),
    ];
    for (name, front) in &fronts {
        let trace = trace::assemble(2, front, &whole);
        cases.add(&format!("free/{name}"), trace);
        let trace = trace::assemble(2, front, &[]);
        cases.add(&format!("free/{name}-alone"), trace);
    }
    let mut trace = inner.clone();
    trace.insert(0, 0);
    cases.add("free/offset-not-told", trace);
    // The first record is free to the trailer: the store is not seen.
    let mut trace = whole.concat();
    trace.extend_from_slice(&raw_trailer(MARK, 12, 8, 2, 0));
    cases.add("free/first-record", trace);
    let mut trace = whole.concat();
    trace.extend_from_slice(&raw_trailer(MARK, 96, 1, 2, 0));
    cases.add("free/all-but-last-record", trace);
}

fn behind_the_trailer(cases: &mut Cases) {
    let inner = trace::assemble(2, &[], &records(WHOLE));
    for count in [1, 12, 16] {
        let trace = [inner.as_slice(), &vec![0; count]].concat();
        cases.add(&format!("behind/zeros-{count}"), trace);
    }
    cases.add(
        "behind/trailer-again",
        [&inner[..], &inner[inner.len() - 16..]].concat(),
    );
    cases.add("behind/trace-again", [&inner[..], &inner[..]].concat());
    cases.add("behind/cut-by-1", inner[..inner.len() - 1].to_vec());
}

fn areas(cases: &mut Cases) {
    let runs = [
        ("whole", WHOLE),
        ("one", "store 0/8 site 513"),
        ("none", ""),
        ("refused-late", "store 0/8; persisted 0/8; persisted 0/129"),
        ("open", "store 0/8; persisted 0/8; begin"),
    ];
    for (name, events) in runs {
        let all = records(events);
        let need = RECORD * all.len();
        let trace = trace::assemble(2, &[], &all);
        let sizes = [
            ("exact", Some(need)),
            ("plus-1", Some(need + 1)),
            ("plus-12", Some(need + 12)),
            ("plus-100", Some(need + 100)),
            ("minus-1", need.checked_sub(1)),
            ("minus-12", need.checked_sub(12)),
            ("empty", Some(0)),
        ];
        for (size, area) in sizes {
            if let Some(area) = area {
                cases.add_with_area(&format!("area/{name}-{size}"), trace.clone(), area);
            }
        }
    }
    let trace = trace::assemble(2, &[], &records("fence"));
    cases.add_with_area("area/largest", trace, MAX_TRACE);
}
