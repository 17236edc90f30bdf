//! Runs that are mostly accepted: the request's own, ranges at edges, nesting, transactions,
//! write-backs and ordered pairs.

use super::{records, repeat, Cases};
use crate::event::LINE;
use crate::trace;

/// The whole run of the request.
pub(crate) const WHOLE: &str = "store 0/8 site 10; store 64/8 site 11; write-back 0/8 site 12;
    fence site 13; ordered 0/8 before 64/8 site 14; persisted 64/8 site 15;
    write-back 0/128 site 16; fence site 17; persisted 0/128 site 18";

pub(super) fn add(cases: &mut Cases) {
    small(cases);
    whole(cases);
    edges(cases);
    nesting(cases);
    transactions(cases);
    write_backs(cases);
    ordered_histories(cases);
    ordered_ranges(cases);
    persisted(cases);
}

/// The small runs of the request, and some more of that size; two lines.
pub(crate) const SMALL: [(&str, &str); 16] = [
    ("persisted-fresh", "persisted 0/128"),
    ("stored", "store 0/8; persisted 0/8"),
    ("written-back", "store 0/8; write-back 0/8; persisted 0/8"),
    ("fenced", "store 0/8; write-back 0/8; fence; persisted 0/8"),
    (
        "too-early",
        "write-back 0/8; store 0/8; fence; persisted 0/8",
    ),
    (
        "stored-again",
        "store 0/8; write-back 0/8; store 0/8; fence; persisted 0/8",
    ),
    (
        "one-line-in-order",
        "store 0/8; store 8/8; ordered 0/8 before 8/8",
    ),
    (
        "one-line-reversed",
        "store 0/8; store 8/8; ordered 8/8 before 0/8",
    ),
    ("straddling", "store 60/8; ordered 60/4 before 64/4"),
    ("itself", "store 0/8; ordered 0/8 before 0/8"),
    ("unlogged", "begin; store 0/8; end"),
    ("nothing", ""),
    ("fence-only", "fence"),
    ("write-back-fresh", "write-back 0/128"),
    ("begin-end", "begin; end"),
    ("torn", "store 0/16; ordered 0/8 before 8/8"),
];

fn small(cases: &mut Cases) {
    for (name, events) in SMALL {
        cases.run(&format!("small/{name}"), 2, events);
    }
    for range in ["120/8", "121/8"] {
        let short = range.replace('/', "-");
        for (word, events) in with_range(range) {
            cases.run(&format!("small/{word}-{short}"), 2, &events);
        }
    }
    let eight = repeat("begin", 8);
    let ends = repeat("end", 8);
    cases.run("small/begin-8", 2, &format!("{eight};{ends}"));
    cases.run("small/begin-8-open", 2, &eight);
    cases.run("small/begin-9", 2, &format!("{eight}; begin; {ends}; end"));
}

/// A trace of each kind of event that takes the range. All are accepted if the range is good, but for
/// the last one where the range has bytes, which is refused by 18.
pub(super) fn with_range(range: &str) -> Vec<(&'static str, String)> {
    vec![
        ("store", format!("store {range}")),
        ("write-back", format!("write-back {range}")),
        ("log", format!("begin; log {range}; end")),
        ("persisted", format!("persisted {range}")),
        ("ordered-a", format!("ordered {range} before 0/1")),
        ("ordered-b", format!("ordered 0/1 before {range}")),
        ("ordered-ab", format!("ordered {range} before {range}")),
    ]
}

fn whole(cases: &mut Cases) {
    cases.run("whole/run", 2, WHOLE);
    for count in [1, 11, 12, 13, 100] {
        let free: Vec<u8> = (0..count).map(|at| at as u8).collect();
        let trace = trace::assemble(2, &free, &records(WHOLE));
        cases.add(&format!("whole/free-{count}"), trace);
    }
    cases.run("whole/window-1", 1, WHOLE);
    cases.run("whole/window-64", 64, WHOLE);
}

/// Ranges at the edges of lines and windows.
fn edges(cases: &mut Cases) {
    for lines in [1u16, 2, 63, 64] {
        let window = usize::from(lines) * LINE;
        let (last, half) = (window - 1, window / 2);
        // Address and length, and the address of the eight bytes beside the range or at its end.
        let good = [
            ("first-byte", 0, 1, 1),
            ("last-byte", last, 1, last - 8),
            ("last-8", window - 8, 8, window - 16),
            ("whole", 0, window, window - 8),
            ("half", half, window - half, half - 8),
        ];
        for (name, address, length, beside) in good {
            let name = format!("edges/{lines}-{name}");
            cases.run(&name, lines, &all_uses(address, length, beside));
        }
        let past = [
            ("behind", format!("{window}/1")),
            ("by-one", format!("{}/8", window - 7)),
            ("whole-by-one", format!("0/{}", window + 1)),
            ("wrap-to-0", "32768/32768".to_string()),
            ("largest", "65535/65535".to_string()),
            ("wrap-address", "65535/1".to_string()),
            ("wrap-length", "1/65535".to_string()),
        ];
        for (at, (name, range)) in past.into_iter().enumerate() {
            let uses = with_range(&range);
            // Every kind for the first two, then one kind after another.
            let chosen = if at < 2 { 0..uses.len() } else { at..at + 1 };
            for (word, events) in &uses[chosen] {
                cases.run(&format!("edges/{lines}-{name}-{word}"), lines, events);
            }
        }
    }
    line_edges(cases);
}

/// Every kind of event with one range, and orders between it and the eight bytes beside it. If these
/// are its last ones, the orders are between them and the other ones.
fn all_uses(address: usize, length: usize, beside: usize) -> String {
    let range = format!("{address}/{length}");
    let inside = (address..address + length).contains(&beside);
    let a = if inside {
        format!("{address}/{}", length - 8)
    } else {
        range.clone()
    };
    let b = format!("{beside}/8");
    format!(
        "persisted {range}; ordered {a} before {b}; write-back {range}; begin; log {range};
        store {range}; store {b}; ordered {a} before {b}; ordered {b} before {a}; persisted {range};
        write-back {range}; fence; ordered {a} before {b}; ordered {b} before {a};
        persisted {range}; end; write-back {range}"
    )
}

fn line_edges(cases: &mut Cases) {
    for (stored, name) in [("63/1", "63"), ("63/2", "63-64"), ("64/1", "64")] {
        for (wrote, line) in [("0/1", "line-0"), ("64/64", "line-1"), ("63/2", "both")] {
            let name = format!("edges/stored-{name}-written-{line}");
            let events = format!(
                "store {stored}; write-back {wrote}; fence; persisted 62/1; persisted 63/1;
                persisted 64/1; persisted 65/1; persisted 62/4; ordered 63/1 before 64/1;
                ordered 64/1 before 63/1; ordered 0/64 before 64/64; write-back 0/128"
            );
            cases.run(&name, 2, &events);
        }
    }
    for (range, name) in [("0/64", "0"), ("0/65", "one-more"), ("1/64", "1")] {
        let events = format!("store {range}; write-back 0/64; fence; persisted 0/128");
        cases.run(&format!("edges/line-{name}"), 2, &events);
    }
}

fn nesting(cases: &mut Cases) {
    for depth in 1..=9 {
        let (begins, ends) = (repeat("begin", depth), repeat("end", depth));
        let inner = "log 0/8; store 0/8; write-back 0/8; fence";
        let closed = format!("{begins}; {inner}; {ends}");
        cases.run(&format!("nesting/{depth}-closed"), 2, &closed);
        let one_open = format!("{begins}; {inner}; {}", repeat("end", depth - 1));
        cases.run(&format!("nesting/{depth}-one-open"), 2, &one_open);
        let one_end = format!("{begins}; {inner}; {ends}; end");
        cases.run(&format!("nesting/{depth}-one-end-more"), 2, &one_end);
    }
    let seven = repeat("begin", 7);
    let ends = repeat("end", 8);
    let again = format!("{seven}; begin; end; begin; store 0/8; {ends}");
    cases.run("nesting/eighth-again", 2, &again);
    let ninth = format!("{seven}; begin; end; begin; begin; {ends}");
    cases.run("nesting/ninth-after-an-end", 2, &ninth);
    let second = format!("begin; end; {seven}; begin; {ends}");
    cases.run("nesting/eight-after-one", 2, &second);
    let second = format!("begin; end; {seven}; begin; begin");
    cases.run("nesting/nine-after-one", 2, &second);
}

fn transactions(cases: &mut Cases) {
    let runs = [
        ("empty", "begin; end"),
        ("empty-nested", "begin; begin; end; end"),
        ("empty-log", "begin; log 0/8; end"),
        ("empty-persisted", "begin; persisted 0/8; end"),
        ("empty-after-store", "store 0/8; begin; end"),
        (
            "empty-write-back",
            "store 0/8; begin; write-back 0/8; fence; end",
        ),
        (
            "durable",
            "begin; log 0/8; store 0/8; write-back 0/8; fence; end",
        ),
        ("no-fence", "begin; log 0/8; store 0/8; write-back 0/8; end"),
        ("no-write-back", "begin; log 0/8; store 0/8; fence; end"),
        (
            "fence-first",
            "begin; log 0/8; store 0/8; fence; write-back 0/8; end",
        ),
        (
            "stored-again",
            "begin; log 0/8; store 0/8; write-back 0/8; store 4/1; fence; end",
        ),
        (
            "inner-store-durable",
            "begin; begin; log 0/8; store 0/8; end; write-back 0/8; fence; end",
        ),
        (
            "inner-store-lost",
            "begin; begin; log 0/8; store 0/8; end; end",
        ),
        (
            "lost-before-the-begin",
            "store 0/8; begin; log 64/8; store 64/8; write-back 64/8; fence; end; persisted 0/8",
        ),
        (
            "lost-both",
            "store 0/8; begin; log 64/8; store 64/8; end; persisted 0/128",
        ),
        (
            "stored-before-and-in",
            "store 0/8; begin; log 4/8; store 4/8; end; persisted 0/12",
        ),
        (
            "lowest-of-two",
            "begin; log 0/128; store 100/4; store 20/4; write-back 64/8; fence; end",
        ),
        (
            "highest-of-two",
            "begin; log 0/128; store 100/4; store 20/4; write-back 0/8; fence; end",
        ),
        ("unlogged-all", "begin; store 8/8; end"),
        ("unlogged-first", "begin; log 9/7; store 8/8; end"),
        ("unlogged-last", "begin; log 8/7; store 8/8; end"),
        (
            "unlogged-middle",
            "begin; log 8/3; log 12/4; store 8/8; end",
        ),
        ("logged-in-two", "begin; log 8/4; log 12/4; store 8/8; end"),
        ("logged-wider", "begin; log 0/64; store 8/8; end"),
        ("logged-straddling", "begin; log 60/8; store 60/8; end"),
        ("unlogged-straddling", "begin; log 60/4; store 60/8; end"),
        ("logged-after", "begin; store 0/8; log 0/8; store 0/8; end"),
        ("logged-outside", "store 0/8; begin; end; store 0/8"),
        ("twice", "begin; log 0/8; log 0/8; end"),
        ("twice-by-one", "begin; log 0/8; log 7/8; end"),
        ("twice-not-quite", "begin; log 0/8; log 8/8; end"),
        ("twice-around", "begin; log 4/2; log 0/16; end"),
        (
            "twice-nested",
            "begin; log 0/8; begin; log 4/8; end; log 0/16; end",
        ),
        (
            "twice-after-inner-end",
            "begin; begin; log 0/8; end; log 0/8; store 0/8; end",
        ),
        ("thrice", "begin; log 0/8; log 0/8; log 0/8; end"),
        (
            "next-one-logs",
            "begin; log 0/8; end; begin; log 0/8; store 0/8; end",
        ),
        (
            "next-one-unlogged",
            "begin; log 0/8; store 0/8; end; begin; store 0/8; end",
        ),
        (
            "inner-end-keeps-marks",
            "begin; log 0/8; begin; end; store 0/8; begin; store 0/8; end; end",
        ),
        (
            "inner-begin-keeps-marks",
            "begin; log 0/8; begin; store 0/8; end; end",
        ),
        (
            "second-empty",
            "begin; log 0/8; store 0/8; write-back 0/8; fence; end; begin; end",
        ),
        (
            "second-holds",
            "begin; store 0/8; end; begin; log 64/8; store 64/8; write-back 64/8; fence; end",
        ),
        (
            "second-makes-durable",
            "begin; log 0/8; store 0/8; end; begin; write-back 0/8; fence; log 9/1; store 9/1; end",
        ),
        (
            "assertions-inside",
            "begin; log 0/8; store 0/8; persisted 0/8; ordered 0/4 before 4/4; write-back 0/8;
            fence; persisted 0/8; end",
        ),
    ];
    for (name, events) in runs {
        cases.run(&format!("transaction/{name}"), 2, events);
    }
}

/// Write-backs of three lines, each never stored to, stored to since its write-back, written
/// back since its store, or stored to and never written back.
fn write_backs(cases: &mut Cases) {
    for state in 0..27 {
        let mut name = "write-back/".to_string();
        let mut events = String::new();
        for line in 0..3 {
            let address = line * LINE + 16;
            let (letter, history) = match state / [9, 3, 1][line] % 3 {
                0 => ("clean", String::new()),
                1 => ("stored", format!("store {address}/4;")),
                _ => (
                    "written",
                    format!("store {address}/4; write-back {address}/1;"),
                ),
            };
            name = format!("{name}{}{letter}", if line > 0 { "-" } else { "" });
            events += &history;
        }
        let events = format!("{events} write-back 0/192; write-back 63/66");
        cases.run(&name, 3, &events);
    }
    let runs = [
        ("clean-twice", "write-back 0/8; write-back 0/8"),
        (
            "clean-then-stored",
            "write-back 0/8; store 0/8; write-back 0/8; write-back 0/8",
        ),
        (
            "fence-between",
            "store 0/8; write-back 0/8; fence; write-back 0/8",
        ),
        ("other-byte", "store 0/8; write-back 32/8; write-back 0/8"),
        (
            "stored-elsewhere",
            "store 0/8; write-back 0/8; store 40/8; write-back 0/8",
        ),
        (
            "straddling-store",
            "store 60/8; write-back 0/1; write-back 64/1; write-back 60/8",
        ),
        (
            "straddling",
            "store 60/8; write-back 60/8; store 64/1; write-back 60/8",
        ),
        (
            "second-line-clean",
            "store 0/8; write-back 63/2; write-back 64/1",
        ),
        (
            "empty-second",
            "store 64/8; write-back 0/128; store 0/8; write-back 0/128",
        ),
    ];
    for (name, events) in runs {
        cases.run(&format!("write-back/{name}"), 3, events);
    }
}

/// Histories of two ranges, each with orders in both directions.
const HISTORIES: [(&str, &str); 16] = [
    ("neither", "fence"),
    ("a", "store A"),
    ("b", "store B"),
    ("a-b", "store A; store B"),
    ("b-a", "store B; store A"),
    ("a-fence-b", "store A; fence; store B"),
    ("a-written-b", "store A; write-back A; store B"),
    ("a-durable-b", "store A; write-back A; fence; store B"),
    ("a-durable-later-b", "store A; write-back A; store B; fence"),
    (
        "a-fence-written-b",
        "store A; fence; write-back A; store B; fence",
    ),
    (
        "a-written-a-fence-b",
        "store A; write-back A; store A; fence; store B",
    ),
    (
        "a-durable-b-a",
        "store A; write-back A; fence; store B; store A",
    ),
    (
        "a-b-durable",
        "store A; store B; write-back A; write-back B; fence",
    ),
    (
        "a-b-a-durable",
        "store A; store B; store A; write-back A; write-back B; fence",
    ),
    (
        "a-durable-twice-b",
        "store A; write-back A; fence; write-back A; fence; store B",
    ),
    (
        "b-a-durable-b",
        "store B; store A; write-back A; fence; store B; write-back B; fence",
    ),
];

/// Ranges A and B for the histories, and a range of each to order, which share no byte.
const PLACES: [(&str, [&str; 2], [&str; 2]); 5] = [
    ("one-line", ["8/4", "24/4"], ["8/4", "24/4"]),
    ("two-lines", ["8/4", "72/4"], ["8/4", "72/4"]),
    ("two-lines-down", ["72/4", "8/4"], ["72/4", "8/4"]),
    ("overlapping", ["58/8", "62/8"], ["58/4", "62/8"]),
    ("overlapping-behind", ["58/8", "62/8"], ["58/8", "66/4"]),
];

fn ordered_histories(cases: &mut Cases) {
    for (place, [a, b], [first, second]) in PLACES {
        for (name, history) in HISTORIES {
            let history = history.replace('A', a).replace('B', b);
            let asked = format!("ordered {first} before {second}; ordered {second} before {first}");
            let more = format!(
                "persisted {a}; persisted {b}; ordered 0/16 before 16/112;
                ordered 16/112 before 0/16; ordered 0/64 before 64/64; ordered 64/64 before 0/64"
            );
            let events = format!("{history}; {asked}; {more}");
            cases.run(&format!("ordered/{place}-{name}"), 2, &events);
        }
    }
}

/// Which pair is the lowest, when several break.
fn ordered_ranges(cases: &mut Cases) {
    let runs = [
        (
            "lowest-kept",
            "store 100/4; store 70/4; store 0/8",
            "0/64 before 64/64",
        ),
        (
            "lowest-lost",
            "store 70/4; store 20/4; store 4/4",
            "0/64 before 64/64",
        ),
        (
            "second-kept",
            "store 64/4; store 0/4; write-back 0/4; fence; store 80/4; store 32/4",
            "0/64 before 64/64",
        ),
        (
            "first-partner-durable",
            "store 0/4; write-back 0/4; fence; store 8/4; store 64/4",
            "0/64 before 64/64",
        ),
        (
            "partner-in-own-line",
            "store 0/4; store 8/4; store 64/4",
            "4/124 before 0/4",
        ),
        (
            "partner-in-next-line",
            "store 0/4; store 64/4",
            "4/124 before 0/4",
        ),
        ("a-inside-b", "store 8/4; store 4/16", "8/4 before 4/16"),
        ("b-inside-a", "store 4/16; store 8/4", "4/16 before 8/4"),
        (
            "b-rewritten",
            "store 0/8; store 64/8; write-back 0/8; fence; store 66/2",
            "0/8 before 64/8",
        ),
        (
            "b-all-rewritten",
            "store 0/8; store 64/8; write-back 0/8; fence; store 64/8",
            "0/8 before 64/8",
        ),
        ("a-part-stored", "store 4/1; store 64/8", "0/8 before 64/8"),
        ("b-part-stored", "store 0/8; store 70/1", "0/8 before 64/8"),
        (
            "three-lines",
            "store 60/72; write-back 64/1; fence",
            "60/36 before 96/36",
        ),
        (
            "three-lines-down",
            "store 60/72; write-back 64/1; fence",
            "96/36 before 60/36",
        ),
        (
            "three-lines-durable",
            "store 60/72; write-back 60/72; fence",
            "60/36 before 96/36",
        ),
        (
            "outer-lines",
            "store 0/4; store 128/4; store 64/4",
            "0/64 before 64/128",
        ),
        (
            "outer-lines-down",
            "store 0/4; store 128/4; store 64/4",
            "128/64 before 0/128",
        ),
        ("self-straddling", "store 60/8", "60/8 before 60/8"),
        (
            "self-straddling-durable",
            "store 60/8; write-back 60/8; fence",
            "60/8 before 60/8",
        ),
        (
            "before-a-fence-after",
            "store 0/8; write-back 0/8; store 64/8; fence; fence",
            "0/8 before 64/8",
        ),
        ("one-byte", "store 63/1; store 64/1", "63/1 before 64/1"),
        (
            "one-byte-itself",
            "store 63/1; store 63/1",
            "63/1 before 63/1",
        ),
    ];
    for (name, history, asked) in runs {
        let events = format!("{history}; ordered {asked}");
        cases.run(&format!("ordered/range-{name}"), 3, &events);
    }
}

fn persisted(cases: &mut Cases) {
    let runs = [
        (
            "never-stored-beside",
            "store 8/8; persisted 0/8; persisted 16/8",
        ),
        ("covers-more", "store 8/8; persisted 0/64"),
        (
            "one-line-durable",
            "store 60/8; write-back 60/1; fence; persisted 60/8",
        ),
        (
            "other-line-durable",
            "store 60/8; write-back 64/1; fence; persisted 60/8",
        ),
        (
            "both-durable",
            "store 60/8; write-back 60/8; fence; persisted 60/8",
        ),
        (
            "older-part",
            "store 0/8; write-back 0/8; store 4/2; fence; persisted 0/8; persisted 0/4",
        ),
        (
            "newer-durable",
            "store 0/8; store 4/2; write-back 0/8; fence; persisted 0/8",
        ),
        (
            "two-epochs",
            "store 0/8; write-back 0/8; fence; store 8/8; fence; persisted 0/16",
        ),
        (
            "stored-after-durable",
            "store 0/8; write-back 0/8; fence; store 0/8; persisted 0/8",
        ),
        (
            "fence-without-write-back",
            "store 0/8; fence; fence; persisted 0/8",
        ),
        (
            "second-write-back",
            "store 0/8; write-back 0/8; store 0/8; write-back 0/8; fence; persisted 0/8",
        ),
        (
            "wrong-line",
            "store 0/8; write-back 64/8; fence; persisted 0/8",
        ),
        (
            "every-line",
            "store 0/192; write-back 0/192; fence; store 191/1; persisted 0/192; persisted 0/191",
        ),
        (
            "largest-site",
            "store 0/8 site 65535; persisted 0/8 site 65535; persisted 9/1 site 0",
        ),
    ];
    for (name, events) in runs {
        cases.run(&format!("persisted/{name}"), 3, events);
    }
}
