//! The script format: what it writes, its round trip, and its grammar.

use reference::random::{self, Random};
use reference::script::{text_of, Expect, Script};
use reference::trace;
use reference::{Kind, Refusal};

const ALL_FORMS: &str = "# every form of line
\tlines 3   # three lines

free 50 54 52 41
free 0a FF
store 0/8 site 10
store 60/8
  write-back 0/8 site 0
fence\tsite 65535
begin
log 0/8
end
expect lost 0 0 7 1
persisted 64/8
expect lost
ordered 0/8 before 64/8 site 9
record 01 00 00 00 08 00 00 00 00 00 0a 00
expect none
";

#[test]
fn writes_every_form() {
    let script = Script::parse(ALL_FORMS).expect("the script is good");
    assert_eq!(script.lines, 3);
    assert_eq!(script.free, [0x50, 0x54, 0x52, 0x41, 0x0a, 0xff]);
    let records: Vec<_> = script.events.iter().map(|event| event.record).collect();
    let expected = [
        [1, 0, 0, 0, 8, 0, 0, 0, 0, 0, 10, 0],
        // Without a site it is the line's number.
        [1, 0, 60, 0, 8, 0, 0, 0, 0, 0, 7, 0],
        [2, 0, 0, 0, 8, 0, 0, 0, 0, 0, 0, 0],
        [3, 0, 0, 0, 0, 0, 0, 0, 0, 0, 255, 255],
        [4, 0, 0, 0, 0, 0, 0, 0, 0, 0, 10, 0],
        [5, 0, 0, 0, 8, 0, 0, 0, 0, 0, 11, 0],
        [6, 0, 0, 0, 0, 0, 0, 0, 0, 0, 12, 0],
        [7, 0, 64, 0, 8, 0, 0, 0, 0, 0, 14, 0],
        [8, 0, 0, 0, 8, 0, 64, 0, 8, 0, 9, 0],
        [1, 0, 0, 0, 8, 0, 0, 0, 0, 0, 10, 0],
    ];
    assert_eq!(records, expected);
    let trace = script.trace();
    assert_eq!(trace[..6], script.free);
    assert_eq!(trace[6..18], expected[0]);
    assert_eq!(trace[126..], *b"PTRA\x06\0\0\0\x0a\0\0\0\x03\0\0\0");
    let lost = Expect {
        kind: Kind::Lost,
        fields: Some([0, 0, 7, 1]),
    };
    assert_eq!(script.events[6].expect, Some(lost));
    assert_eq!(script.events[7].expect.map(|e| e.fields), Some(None));
    assert_eq!(script.events[8].expect, None);
}

#[test]
fn writes_what_is_given() {
    let script = Script::parse("lines 65535\nstore 65535/0\nrefused 4 at 0\n").expect("good");
    let trace = script.trace();
    assert_eq!(trace[..6], [1, 0, 255, 255, 0, 0]);
    assert_eq!(trace[24..], [255, 255, 0, 0]);
    let refusal = Refusal {
        number: 4,
        record: 0,
    };
    assert_eq!(script.refused, Some(refusal));
    let empty = Script::parse("lines 0").expect("good");
    assert_eq!(empty.trace(), *b"PTRA\0\0\0\0\0\0\0\0\0\0\0\0");
}

/// Text, script, text, script: the same but for the lines' numbers.
#[test]
fn text_round_trip() {
    let scripts = [ALL_FORMS, "lines 2\nfence\nrefused 13 at 0", "lines 1"];
    for text in scripts {
        let script = Script::parse(text).expect("good");
        let again = Script::parse(&script.to_text()).expect("good");
        assert_eq!(again.to_text(), script.to_text());
        assert_eq!(again.trace(), script.trace());
        assert_eq!(again.refused, script.refused);
        let expects = |script: &Script| -> Vec<_> {
            script.events.iter().map(|event| event.expect).collect()
        };
        assert_eq!(expects(&again), expects(&script));
    }
}

/// Trace, text, trace: the same, for damaged records too.
#[test]
fn trace_round_trip() {
    let mut random = Random::new(11);
    let mut written = 0;
    for number in 0..2_000 {
        let shape = random::any_shape(&mut random);
        let trace = if number % 2 == 0 {
            random::valid(&mut random, &shape)
        } else {
            random::damaged(&mut random, &shape)
        };
        let Some(text) = text_of(&trace) else {
            assert!(trace::open(&trace).is_err());
            continue;
        };
        let script = Script::parse(&text).expect("the text is good");
        assert_eq!(script.trace(), trace, "{text}");
        written += 1;
    }
    assert!(written > 1_500, "{written}");
}

fn mistake(text: &str, at: usize, what: &str) {
    let mistake = Script::parse(text).expect_err(text);
    assert_eq!(mistake.at, at, "{text}: {}", mistake.what);
    assert!(mistake.what.contains(what), "{text}: {}", mistake.what);
}

#[test]
fn mistakes_of_order() {
    mistake("", 1, "`lines N` is missing");
    mistake("# nothing\n\n", 2, "`lines N` is missing");
    mistake("store 0/8\nlines 2", 1, "comes first");
    mistake("free 00\nlines 2", 1, "comes first");
    mistake("refused 9 at 1\nlines 2", 1, "comes first");
    mistake("lines 2\nlines 2", 2, "twice");
    mistake("lines 2\nfence\nfree 00", 3, "before the first event");
    mistake("lines 2\nexpect none", 2, "without an event");
    mistake("lines 2\nfence\nexpect none\nexpect none", 4, "already");
    mistake("lines 2\nfence\nexpect none\nrefused 9 at 1", 4, "beside");
    mistake("lines 2\nrefused 9 at 1\nfence\nexpect none", 4, "beside");
    mistake("lines 2\nrefused 9 at 1\nrefused 9 at 1", 3, "twice");
}

#[test]
fn mistakes_of_words() {
    for line in [
        "Store 0/8",
        "store",
        "store 0/8 9",
        "store 0/8 site",
        "store 0/8 site 1 site 2",
        "store 0/8 64/8",
        "site 5",
        "fence 0/8",
        "begin 1",
        "end now",
        "ordered 0/8 64/8",
        "ordered 0/8 after 64/8",
        "ordered 0/8 before",
        "lines",
        "flush 0/8",
        "writeback 0/8",
        "refused 9",
        "refused 9 at",
        "refused 9 in 3",
        "refused 9 at 3 4",
        "free",
        "expect",
        "store\u{a0}0/8",
    ] {
        let text = format!("lines 2\nfence\n{line}\nfence\n");
        let text = text.replace("fence\nfree", "free");
        let found = Script::parse(&text).expect_err(line);
        assert!(!found.what.is_empty());
    }
    mistake("lines 2\nfence\nexpect lost 1", 3, "lost kept moment store");
    mistake(
        "lines 2\nfence\nexpect lost 1 2 3",
        3,
        "lost kept moment store",
    );
    mistake(
        "lines 2\nfence\nexpect lost 1 2 3 4 5",
        3,
        "lost kept moment store",
    );
    mistake("lines 2\nfence\nexpect gone", 3, "`gone`");
    mistake("lines 2\nrefused 0 at 0", 2, "number 0");
    mistake("lines 2\nrefused 8 at 1", 2, "number 8");
    mistake("lines 2\nrefused 15 at 0", 2, "number 15");
    mistake("lines 2\nrefused 17 at 0", 2, "number 17");
    mistake("lines 2\nrefused 19 at 0", 2, "number 19");
}

#[test]
fn mistakes_of_numbers() {
    for word in [
        "",
        "-1",
        "+1",
        "65536",
        "99999999999999999999",
        "0x8",
        "1.0",
        "a",
    ] {
        let text = format!("lines 2\nstore {word}/8");
        mistake(&text, 2, "not a number");
        let text = format!("lines 2\nstore 8/{word}");
        mistake(&text, 2, "not a number");
    }
    mistake("lines two", 1, "`two`");
    mistake("lines 2 3", 1, "one number");
    mistake("lines 2\nstore 8", 2, "ADDRESS/LENGTH");
    mistake("lines 2\nstore 8/8/8", 2, "not a number");
    mistake("lines 2\nfence site 65536", 2, "not a number");
    for word in ["0", "000", "g0", "+f", "0x1"] {
        mistake(&format!("lines 2\nfree {word}"), 2, "hexadecimal");
    }
    mistake("lines 2\nrecord 01 00", 2, "12 bytes, not 2");
    let thirteen = ["00"; 13].join(" ");
    mistake(&format!("lines 2\nrecord {thirteen}"), 2, "not 13");
    let with_site = format!("{} site 5", ["00"; 12].join(" "));
    mistake(&format!("lines 2\nrecord {with_site}"), 2, "`site`");
}
