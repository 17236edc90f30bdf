//! Refused traces: each number, at several places, and several broken limits at once.

use super::{records, repeat, Cases};
use crate::event::{Event, Range};
use crate::trace::{self, raw_record, raw_trailer, MARK, RECORD, TRAILER};

const NOTHING: Range = Range::new(0, 0);

/// A good run of two lines in which any record may be replaced.
pub(super) const GOOD: &str =
    "begin; log 0/8; store 0/8; write-back 0/8; fence; persisted 0/8; end";
const PLACES: [(&str, usize); 3] = [("first", 0), ("middle", 3), ("last", 6)];

pub(super) fn add(cases: &mut Cases) {
    marks(cases);
    line_counts(cases);
    sums(cases);
    areas(cases);
    kinds(cases);
    lacking_fields(cases);
    ranges(cases);
    transactions(cases);
    orders_in_front(cases);
    orders_in_a_record(cases);
    orders_of_records(cases);
}

/// The good run with one record replaced.
fn replaced(place: usize, record: [u8; RECORD]) -> Vec<u8> {
    let mut all = records(GOOD);
    all[place] = record;
    trace::assemble(2, &[], &all)
}

/// A record at the first, a middle and the last place of the good run.
pub(super) fn everywhere(cases: &mut Cases, name: &str, record: [u8; RECORD]) {
    for (word, place) in PLACES {
        cases.add(&format!("{name}-{word}"), replaced(place, record));
    }
}

/// The good run behind a trailer of these fields.
fn with_trailer(trailer: [u8; TRAILER]) -> Vec<u8> {
    let mut trace: Vec<u8> = records(GOOD).concat();
    trace.extend_from_slice(&trailer);
    trace
}

fn marks(cases: &mut Cases) {
    let marks = [
        ("byte-0", *b"QTRA"),
        ("byte-1", *b"PtRA"),
        ("byte-2", *b"PT\0A"),
        ("byte-3", *b"PTRB"),
        ("lower-case", *b"ptra"),
        ("reversed", *b"ARTP"),
        ("zeros", [0; 4]),
    ];
    for (name, mark) in marks {
        let trace = with_trailer(raw_trailer(mark, 0, 7, 2, 0));
        cases.add(&format!("refused/3-{name}"), trace);
    }
}

fn line_counts(cases: &mut Cases) {
    for lines in [0, 65, 66, 128, 256, 257, 0x4000, 0xffff] {
        let trace = with_trailer(raw_trailer(MARK, 0, 7, lines, 0));
        cases.add(&format!("refused/4-lines-{lines}"), trace);
    }
    for zero in [1, 0x80, 0x100, 0x8000, 0xffff] {
        let trace = with_trailer(raw_trailer(MARK, 0, 7, 2, zero));
        cases.add(&format!("refused/4-zero-{zero}"), trace);
    }
    let trace = with_trailer(raw_trailer(MARK, 0, 7, 0, 1));
    cases.add("refused/4-both", trace);
}

fn sums(cases: &mut Cases) {
    let wrong: [(&str, u32, u32); 17] = [
        ("offset-more", 1, 7),
        ("offset-by-a-record", 12, 7),
        ("count-less", 0, 6),
        ("count-more", 0, 8),
        ("count-0", 0, 0),
        ("offset-more-than-all", 101, 7),
        ("all-free-and-count", 84, 7),
        ("offset-largest", u32::MAX, 7),
        ("count-largest", 0, u32::MAX),
        ("both-largest", u32::MAX, u32::MAX),
        // Sums that are right if they wrap in 32 bits.
        ("wrap-count-4000", 0, 0x4000_0007),
        ("wrap-count-8000", 0, 0x8000_0007),
        ("wrap-count-c000", 0, 0xc000_0007),
        ("wrap-offset-1-record", (-12i32) as u32, 8),
        ("wrap-offset-8-records", (-96i32) as u32, 15),
        ("wrap-offset-top", 0x8000_0000, 0x2000_0007),
        ("wrap-product", 84 + 4, 0x5555_5555),
    ];
    for (name, offset, count) in wrong {
        let trace = with_trailer(raw_trailer(MARK, offset, count, 2, 0));
        cases.add(&format!("refused/5-{name}"), trace);
    }
    let alone = raw_trailer(MARK, (-12i32) as u32, 1, 2, 0);
    cases.add("refused/5-wrap-trailer-alone", alone.to_vec());
    let alone = raw_trailer(MARK, 0, 0x4000_0000, 2, 0);
    cases.add("refused/5-wrap-trailer-alone-count", alone.to_vec());
    let alone = raw_trailer(MARK, 0, 1, 2, 0);
    cases.add("refused/5-record-missing", alone.to_vec());
    for missing in [1, 11, 12] {
        let trace = with_trailer(raw_trailer(MARK, 0, 7, 2, 0));
        let name = format!("refused/5-short-by-{missing}");
        cases.add(&name, trace[missing..].to_vec());
    }
}

fn areas(cases: &mut Cases) {
    let need = 7 * RECORD;
    for area in [0, 1, 12, need - 12, need - 1] {
        let trace = trace::assemble(2, &[], &records(GOOD));
        cases.add_with_area(&format!("refused/14-area-{area}"), trace, area);
    }
    let trace = trace::assemble(2, &[1, 2, 3], &records("fence"));
    cases.add_with_area("refused/14-free-does-not-count", trace, 11);
}

fn kinds(cases: &mut Cases) {
    for kind in [0, 9, 16, 127, 129, 255] {
        let record = raw_record(kind, 0, NOTHING, NOTHING, 3);
        everywhere(cases, &format!("refused/6-kind-{kind}"), record);
    }
    let record = raw_record(9, 0, Range::new(0, 8), Range::new(64, 8), 3);
    everywhere(cases, "refused/6-with-ranges", record);
}

/// Names of the kinds in records.
const KINDS: [(&str, u8); 8] = [
    ("store", Event::STORE),
    ("write-back", Event::WRITE_BACK),
    ("fence", Event::FENCE),
    ("begin", Event::BEGIN),
    ("log", Event::LOG),
    ("end", Event::END),
    ("persisted", Event::PERSISTED),
    ("ordered", Event::ORDERED),
];

/// A good record of the kind.
fn good_record(kind: u8) -> [u8; RECORD] {
    let a = match kind {
        Event::FENCE | Event::BEGIN | Event::END => NOTHING,
        _ => Range::new(0, 8),
    };
    let b = if kind == Event::ORDERED {
        Range::new(64, 8)
    } else {
        NOTHING
    };
    raw_record(kind, 0, a, b, 3)
}

fn lacking_fields(cases: &mut Cases) {
    for (word, kind) in KINDS {
        let mut record = good_record(kind);
        record[1] = kind.rotate_right(1);
        everywhere(cases, &format!("refused/7-{word}-zero"), record);
        let lacking = match kind {
            Event::ORDERED => 10..10,
            Event::FENCE | Event::BEGIN | Event::END => 2..10,
            _ => 6..10,
        };
        for byte in lacking {
            let mut record = good_record(kind);
            record[byte] = 1 << (byte % 8);
            let (place, at) = PLACES[byte % 3];
            let name = format!("refused/7-{word}-byte-{byte}-{place}");
            cases.add(&name, replaced(at, record));
        }
    }
}

fn ranges(cases: &mut Cases) {
    for word in ["store", "write-back", "log", "persisted"] {
        let record = records(&format!("{word} 121/8"))[0];
        everywhere(cases, &format!("refused/9-{word}"), record);
    }
    for (name, event) in [
        ("a", "ordered 128/1 before 0/8"),
        ("b", "ordered 0/8 before 0/129"),
        ("ab", "ordered 121/8 before 65535/65535"),
    ] {
        everywhere(
            cases,
            &format!("refused/9-ordered-{name}"),
            records(event)[0],
        );
    }
}

fn transactions(cases: &mut Cases) {
    let nine = repeat("begin", 9);
    let runs = [
        ("11-end-first", "end".to_string()),
        ("11-log-first", "log 0/8".to_string()),
        ("11-end-middle", "store 0/8; end; begin; end".to_string()),
        ("11-log-middle", "begin; end; log 0/8; fence".to_string()),
        ("11-end-last", "begin; store 0/8; end; end".to_string()),
        ("11-log-last", "begin; log 0/8; end; log 0/8".to_string()),
        ("11-nested", "begin; begin; end; end; end".to_string()),
        ("12-ninth", nine.clone()),
        (
            "12-ninth-then-more",
            format!("{nine}; store 0/8; {}", repeat("end", 9)),
        ),
        ("12-tenth-not-reached", format!("fence; {nine}; begin")),
        ("12-second-transaction", format!("begin; end; {nine}")),
        ("13-one", "begin".to_string()),
        ("13-all", repeat("begin", 8)),
        ("13-inner-ended", "begin; begin; end".to_string()),
        ("13-second", "begin; end; begin".to_string()),
        (
            "13-last-record",
            "store 0/8; persisted 0/8; begin".to_string(),
        ),
        (
            "13-with-findings",
            "begin; store 0/8; persisted 0/8".to_string(),
        ),
    ];
    for (name, events) in runs {
        cases.run(&format!("refused/{name}"), 2, &events);
    }
}

/// Several limits of the trailer, the area and the records broken at once.
fn orders_in_front(cases: &mut Cases) {
    let bad_record = raw_record(9, 1, NOTHING, NOTHING, 0);
    let body = |trailer: [u8; TRAILER]| [bad_record.as_slice(), &trailer].concat();
    let bad = *b"PTRO";
    let runs = [
        ("3-before-4", body(raw_trailer(bad, 0, 1, 0, 0)), 12),
        ("3-before-5", body(raw_trailer(bad, 5, 1, 2, 0)), 12),
        ("3-before-14", body(raw_trailer(bad, 0, 1, 2, 0)), 0),
        ("3-before-all", body(raw_trailer(bad, 9, 9, 99, 9)), 0),
        ("4-before-5", body(raw_trailer(MARK, 5, 1, 65, 0)), 12),
        ("4-zero-before-5", body(raw_trailer(MARK, 0, 2, 2, 1)), 12),
        ("4-before-14", body(raw_trailer(MARK, 0, 1, 0, 0)), 0),
        ("4-before-6", body(raw_trailer(MARK, 0, 1, 0, 0)), 12),
        ("5-before-14", body(raw_trailer(MARK, 0, 2, 2, 0)), 12),
        ("5-before-6", body(raw_trailer(MARK, 1, 1, 2, 0)), 24),
        ("14-before-6", body(raw_trailer(MARK, 0, 1, 2, 0)), 11),
        (
            "6-when-area-is-enough",
            body(raw_trailer(MARK, 0, 1, 2, 0)),
            12,
        ),
    ];
    for (name, trace, area) in runs {
        cases.add_with_area(&format!("order/{name}"), trace, area);
    }
    for events in ["end", "begin", "store 129/0", "store 0/129", "log 0/8"] {
        let trace = trace::assemble(2, &[], &records(events));
        let word = events.replace([' ', '/'], "-");
        cases.add_with_area(&format!("order/14-before-{word}"), trace, 11);
    }
}

/// Several limits broken by one record.
fn orders_in_a_record(cases: &mut Cases) {
    let past = Range::new(128, 1);
    let good = Range::new(0, 8);
    let empty = Range::new(4, 0);
    let far = Range::new(200, 0);
    let runs = [
        ("6-before-7", raw_record(9, 1, NOTHING, NOTHING, 0)),
        ("6-with-no-bytes", raw_record(0, 0, empty, empty, 0)),
        ("6-before-9", raw_record(0, 0, past, past, 0)),
        ("6-before-9-no-bytes", raw_record(9, 0, far, far, 0)),
        (
            "7-with-no-bytes-store",
            raw_record(Event::STORE, 1, empty, NOTHING, 0),
        ),
        (
            "7-with-no-bytes-b",
            raw_record(Event::STORE, 0, NOTHING, good, 0),
        ),
        (
            "7-with-no-bytes-b-address",
            raw_record(Event::STORE, 0, empty, empty, 0),
        ),
        (
            "7-with-no-bytes-fence",
            raw_record(Event::FENCE, 0, empty, NOTHING, 0),
        ),
        (
            "7-before-9-no-bytes-store",
            raw_record(Event::STORE, 0, far, good, 0),
        ),
        (
            "7-before-9-store",
            raw_record(Event::STORE, 0, past, good, 0),
        ),
        (
            "7-with-no-bytes-ordered",
            raw_record(Event::ORDERED, 1, empty, good, 0),
        ),
        (
            "7-before-9-no-bytes-ordered",
            raw_record(Event::ORDERED, 1, empty, far, 0),
        ),
        (
            "7-before-9-ordered",
            raw_record(Event::ORDERED, 255, good, past, 0),
        ),
        ("7-before-11-log", raw_record(Event::LOG, 0, good, good, 0)),
        (
            "7-before-11-end",
            raw_record(Event::END, 0, good, NOTHING, 0),
        ),
        (
            "9-no-bytes-store",
            raw_record(Event::STORE, 0, far, NOTHING, 0),
        ),
        (
            "9-past-beside-no-bytes",
            raw_record(Event::ORDERED, 0, empty, past, 0),
        ),
        (
            "9-past-before-no-bytes",
            raw_record(Event::ORDERED, 0, past, empty, 0),
        ),
        (
            "9-no-bytes-b-far",
            raw_record(Event::ORDERED, 0, good, far, 0),
        ),
        ("11-no-bytes", raw_record(Event::LOG, 0, empty, NOTHING, 0)),
        ("9-before-11", raw_record(Event::LOG, 0, past, NOTHING, 0)),
        (
            "9-before-11-no-bytes",
            raw_record(Event::LOG, 0, far, NOTHING, 0),
        ),
    ];
    for (name, record) in runs {
        let mut all = records("store 0/8; fence");
        all.insert(1, record);
        cases.add(&format!("order/{name}"), trace::assemble(2, &[], &all));
    }
    let mut all = records(&repeat("begin", 9));
    all[8][1] = 1;
    cases.add("order/7-before-12", trace::assemble(2, &[], &all));
    let mut all = records(&repeat("begin", 9));
    all[8][4] = 1;
    cases.add("order/7-a-before-12", trace::assemble(2, &[], &all));
}

/// The earlier record counts, whatever the numbers.
fn orders_of_records(cases: &mut Cases) {
    let bad = [
        ("6", records("record 09 00 00 00 00 00 00 00 00 00 00 00")),
        ("7", records("record 03 01 00 00 00 00 00 00 00 00 00 00")),
        ("9", records("persisted 0/129")),
        ("9-no-bytes", records("persisted 129/0")),
        ("11", records("end")),
        ("12", records(&repeat("begin", 9))),
        ("18", records("ordered 0/8 before 4/8")),
    ];
    for (one, first) in &bad {
        for (other, second) in &bad {
            if one != other {
                let all = [records("fence"), first.clone(), second.clone()].concat();
                let name = format!("order/record-{one}-then-{other}");
                cases.add(&name, trace::assemble(2, &[], &all));
            }
        }
        // An end would close the transaction.
        if *one != "11" {
            let all = [records("begin; fence"), first.clone()].concat();
            let name = format!("order/record-{one}-and-open");
            cases.add(&name, trace::assemble(2, &[], &all));
        }
    }
}
