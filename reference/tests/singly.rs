//! The calls on single events, both ways: answers written by hand, the calls file with the text of
//! its answers, and random events.

use reference::calls::{self, Answer, Call, Calls, Counts, Sort};
use reference::corpus::{self, torn};
use reference::direct::Run;
use reference::images::{self, History};
use reference::random::{self, Random, Shape};
use reference::script::{Expect, Script};
use reference::writer::Writer;
use reference::{no_bytes, orders, singly, Event, Exposure, Finding, Interval};
use reference::{trace, Totals, Way};
use reference::{Kind, Range, Record, Refusal};
use std::collections::BTreeMap;
use std::path::Path;

/// The answers to the runs at the limits, under a line `run: NAME` for each run.
const LIMITS: &str = include_str!("data/limits.txt");

/// The answers to the runs with the events of intervals, worked out by hand, in the same form.
const EVENTS: &str = include_str!("data/events.txt");

/// The answers to the runs with exposures, worked out by hand, in the same form.
const EXPOSURES: &str = include_str!("data/exposure.txt");

/// The answers to the runs with ranges of no bytes, worked out by hand, in the same form.
const NO_BYTES: &str = include_str!("data/no_bytes.txt");

/// The answers to the runs with orders between ranges that share a byte, worked out by hand, in the
/// same form.
const SHARED: &str = include_str!("data/shared.txt");

/// The site of the events given here.
const SITE: u16 = 7;

// Text: a line `run: NAME`, then a line `CALL: ANSWER` for each call, a fresh window first.

struct Printed<'a> {
    name: &'a str,
    /// Calls and answers.
    lines: Vec<(&'a str, &'a str)>,
}

fn runs(text: &str) -> Vec<Printed<'_>> {
    let mut runs: Vec<Printed> = Vec::new();
    for line in text.lines() {
        let (call, answer) = line.split_once(": ").expect("a call and its answer");
        if call == "run" {
            runs.push(Printed {
                name: answer,
                lines: Vec::new(),
            });
        } else {
            let run = runs.last_mut().expect("a run has a name");
            run.lines.push((call, answer));
        }
    }
    runs
}

fn number<T: std::str::FromStr>(text: &str) -> T {
    text.parse().ok().expect("a number that fits")
}

fn range(text: &str) -> Range {
    let (address, length) = text.split_once('/').expect("an address and a length");
    Range::new(number(address), number(length))
}

fn event(words: &[&str]) -> Event {
    match words {
        ["store", a] => Event::Store(range(a)),
        ["write-back", a] => Event::WriteBack(range(a)),
        ["fence"] => Event::Fence,
        ["begin"] => Event::Begin,
        ["log", a] => Event::Log(range(a)),
        ["end"] => Event::End,
        ["persisted", a] => Event::Persisted(range(a)),
        ["ordered", a, "before", b] => Event::Ordered(range(a), range(b)),
        _ => panic!("not a call: {words:?}"),
    }
}

/// The words of an answer, or of the refusal in its place.
fn answer<T>(result: Result<T, Refusal>, words: impl Fn(T) -> String) -> String {
    match result {
        Ok(value) => words(value),
        Err(refusal) => {
            assert_eq!(refusal.record, 0);
            format!("refused {}", refusal.number)
        }
    }
}

fn finding_words(finding: Finding) -> String {
    assert_eq!(finding.site, SITE);
    if finding == Finding::of(Kind::None).at(SITE) {
        return "none".to_string();
    }
    format!(
        "finding {} lost {} kept {} moment {} store {}",
        finding.kind.number(),
        finding.lost,
        finding.kept,
        finding.moment,
        finding.store
    )
}

fn interval_words(interval: Interval) -> String {
    match interval {
        Interval::None => "none".to_string(),
        Interval::Open {
            since,
            store,
            write_back,
        } => format!("open since {since} store {store} write-back {write_back}"),
        Interval::Closed {
            from,
            to,
            store,
            write_back,
            fence,
        } => format!("closed {from} to {to} store {store} write-back {write_back} fence {fence}"),
    }
}

fn totals_words(totals: Totals) -> String {
    let Totals {
        events,
        fences,
        found,
    } = totals;
    format!("events {events} fences {fences} findings {found}")
}

fn exposure_words(exposure: Exposure) -> String {
    let Exposure {
        quotient,
        remainder,
        divisor,
    } = exposure;
    format!("quotient {quotient} remainder {remainder} divisor {divisor}")
}

fn give<W: Way>(run: &mut W, event: Event) -> Result<Finding, Refusal> {
    singly::give(run, &Record { event, site: SITE })
}

/// Makes the call and gives the words of its answer.
fn call<W: Way>(run: &mut W, words: &[&str]) -> String {
    match words {
        ["ask", byte] => answer(singly::ask(run, number(byte)), interval_words),
        ["close"] => answer(singly::close(run), totals_words),
        ["exposure"] => answer(singly::exposure(run), exposure_words),
        _ => answer(give(run, event(words)), finding_words),
    }
}

/// Makes the calls of a run, compares each answer, and gives the number of those compared.
fn replay<W: Way>(printed: &Printed) -> usize {
    let name = printed.name;
    let mut lines = printed.lines.iter();
    let (line, expected) = lines.next().expect("a run has a window");
    let window = line.strip_prefix("fresh ").expect("a window comes first");
    let (mut run, taken) = singly::fresh::<W>(number(window));
    let taken = answer(taken, |()| "taken".to_string());
    assert_eq!(taken, *expected, "{name}: {line}");
    for &(line, expected) in lines {
        let words: Vec<&str> = line.split(' ').collect();
        assert_eq!(call(&mut run, &words), expected, "{name}: {line}");
    }
    printed.lines.len()
}

/// Compares every answer of a text both ways, and gives the number of answers.
fn compare(text: &str) -> usize {
    let counts = runs(text).into_iter().map(|run| {
        let compared = replay::<Run>(&run);
        assert_eq!(replay::<History>(&run), compared);
        compared
    });
    counts.sum()
}

/// Persist intervals.
const INTERVALS: &str = "\
run: never stored
fresh 2: taken
ask 0: none
ask 127: none
write-back 0/128: finding 5 lost 0 kept 0 moment 0 store 0
fence: none
ask 0: none
store 8/8: none
ask 7: none
ask 8: open since 1 store 3 write-back 0
ask 15: open since 1 store 3 write-back 0
ask 16: none
run: stored twice around a write-back and a fence
fresh 2: taken
store 0/8: none
ask 0: open since 0 store 1 write-back 0
write-back 0/1: none
ask 0: open since 0 store 1 write-back 2
fence: none
ask 0: closed 0 to 1 store 1 write-back 2 fence 3
store 4/8: none
ask 3: closed 0 to 1 store 1 write-back 2 fence 3
ask 4: open since 1 store 4 write-back 0
ask 8: open since 1 store 4 write-back 0
fence: none
fence: none
ask 4: open since 1 store 4 write-back 0
write-back 63/1: none
ask 4: open since 1 store 4 write-back 7
fence: none
ask 3: closed 0 to 1 store 1 write-back 2 fence 3
ask 4: closed 1 to 4 store 4 write-back 7 fence 8
run: stored again between the write-back and the fence
fresh 2: taken
store 0/8: none
write-back 0/8: none
store 4/4: none
fence: none
ask 0: closed 0 to 1 store 1 write-back 2 fence 4
ask 4: open since 0 store 3 write-back 0
write-back 0/8: none
fence: none
ask 0: closed 0 to 1 store 1 write-back 2 fence 4
ask 4: closed 0 to 2 store 3 write-back 5 fence 6
run: a write-back before the store
fresh 2: taken
write-back 0/8: finding 5 lost 0 kept 0 moment 0 store 0
store 0/8: none
fence: none
ask 0: open since 0 store 2 write-back 0
fence: none
ask 0: open since 0 store 2 write-back 0
run: two write-backs and two fences
fresh 2: taken
fence: none
store 0/8: none
write-back 0/8: none
write-back 0/8: finding 6 lost 0 kept 0 moment 0 store 0
fence: none
ask 0: closed 1 to 2 store 2 write-back 3 fence 5
write-back 0/8: finding 6 lost 0 kept 0 moment 0 store 0
fence: none
ask 0: closed 1 to 2 store 2 write-back 3 fence 5
run: two write-backs, and a store between them
fresh 2: taken
store 0/8: none
write-back 0/8: none
store 8/8: none
write-back 0/8: none
fence: none
ask 0: closed 0 to 1 store 1 write-back 2 fence 5
ask 8: closed 0 to 1 store 3 write-back 4 fence 5
run: a store across two lines
fresh 2: taken
store 60/8: none
write-back 60/1: none
fence: none
ask 63: closed 0 to 1 store 1 write-back 2 fence 3
ask 64: open since 0 store 1 write-back 0
fence: none
write-back 64/1: none
fence: none
ask 60: closed 0 to 1 store 1 write-back 2 fence 3
ask 63: closed 0 to 1 store 1 write-back 2 fence 3
ask 64: closed 0 to 3 store 1 write-back 5 fence 6
ask 67: closed 0 to 3 store 1 write-back 5 fence 6
ask 68: none
run: a write-back of the other line
fresh 2: taken
store 0/8: none
write-back 64/64: finding 5 lost 64 kept 0 moment 0 store 0
fence: none
ask 0: open since 0 store 1 write-back 0
";

#[test]
fn intervals() {
    assert_eq!(compare(INTERVALS), 85);
}

#[test]
fn calls() {
    let text = "\
run: a closed run goes on
fresh 2: taken
close: events 0 fences 0 findings 0
begin: none
close: refused 13
store 0/8: finding 4 lost 0 kept 0 moment 0 store 0
close: refused 13
end: finding 2 lost 0 kept 0 moment 3 store 2
close: events 3 fences 0 findings 2
fence: none
close: events 4 fences 1 findings 2
run: a refused window has one line
fresh 0: refused 4
ask 63: none
ask 64: refused 9
persisted 0/64: finding 1 lost 0 kept 0 moment 0 store 0
persisted 0/65: refused 9
close: events 1 fences 0 findings 1
run: ranges before the state
fresh 1: taken
log 64/0: refused 11
log 65/0: refused 9
log 64/1: refused 9
log 63/1: refused 11
ordered 64/1 before 0/0: refused 9
ordered 0/0 before 64/1: refused 9
ordered 65/0 before 64/0: refused 9
ordered 64/0 before 65/0: refused 9
ordered 64/1 before 0/1: refused 9
ordered 0/1 before 64/1: refused 9
ordered 0/1 before 1/65535: refused 9
write-back 65535/65535: refused 9
write-back 65535/0: refused 9
ask 64: refused 9
ask 65535: refused 9
ask 65536: refused 9
close: events 0 fences 0 findings 0
run: no bytes are no store, no write-back and no log
fresh 1: taken
begin: none
store 64/0: none
write-back 64/0: none
log 64/0: none
persisted 64/0: finding 1 lost 0 kept 0 moment 0 store 0
ordered 64/0 before 64/0: finding 1 lost 0 kept 0 moment 0 store 0
end: finding 8 lost 0 kept 0 moment 0 store 0
ask 63: none
close: events 7 fences 0 findings 3
";
    assert_eq!(compare(text), 44);
}

#[test]
fn line_counts() {
    for lines in 0..=u16::MAX {
        let (run, taken) = singly::fresh::<History>(lines);
        let refused = taken.err().map(|refusal| refusal.number);
        let expected = match lines {
            1..=64 => (64 * usize::from(lines), None),
            _ => (64, Some(4)),
        };
        assert_eq!((run.window(), refused), expected, "{lines}");
    }
}

/// A list with events that may be refused among the others.
fn any_events(random: &mut Random, shape: &Shape) -> Vec<Event> {
    let mut events = Vec::new();
    for record in random::events(random, shape) {
        while random.chance(2, 5) {
            events.push(edge_event(random));
        }
        events.push(record.event);
        if let (Some(a), true) = (record.event.range_a(), random.chance(1, 5)) {
            events.push(Event::Ordered(a, random::near(random, a)));
        }
    }
    events
}

/// An event with addresses and lengths at the edges of lines and windows.
fn edge_event(random: &mut Random) -> Event {
    let edges = [0, 1, 2, 63, 64, 65, 127, 128, 4_095, 4_096, u16::MAX];
    let mut range = || Range::new(random.pick(&edges), random.pick(&edges));
    let (a, b) = (range(), range());
    let kinds = [
        Event::Store(a),
        Event::WriteBack(a),
        Event::Begin,
        Event::Begin,
        Event::Begin,
        Event::Log(a),
        Event::End,
        Event::Persisted(a),
        Event::Ordered(a, b),
    ];
    random.pick(&kinds)
}

/// The answers of the calls that change nothing: the closing, the exposure, and each byte asked.
type Answers = (
    Result<Totals, Refusal>,
    Result<Exposure, Refusal>,
    Vec<Result<Interval, Refusal>>,
);

fn answers<W: Way>(run: &W) -> Answers {
    let bytes = 0..run.window() + 2;
    let intervals = bytes.map(|byte| singly::ask(run, byte));
    let (closing, exposure) = (singly::close(run), singly::exposure(run));
    (closing, exposure, intervals.collect())
}

/// Gives the events to a fresh run. A refused one must not change any answer.
fn give_all<W: Way>(lines: u16, events: &[Event]) -> (Answers, Vec<Result<Finding, Refusal>>) {
    let (mut run, _) = singly::fresh::<W>(lines);
    let mut given = Vec::new();
    for &event in events {
        let before = answers(&run);
        let result = give(&mut run, event);
        assert!(
            result.is_ok() || answers(&run) == before,
            "{event:?}: {events:?}"
        );
        given.push(result);
    }
    (answers(&run), given)
}

/// Random events, refused ones among them: both ways, and the accepted ones alone.
#[test]
fn random_events() {
    let mut random = Random::new(9);
    let (mut lists, mut refused) = (0, [0; 19]);
    let mut no_bytes = no_bytes::Counts::default();
    let mut orders = orders::Counts::default();
    for _ in 0..2_010 {
        let shape = random::small_shape(&mut random);
        let events = any_events(&mut random, &shape);
        let (last, given) = give_all::<Run>(shape.lines, &events);
        let (accepted, findings) = accepted(&events, &given);
        let alone = give_all::<Run>(shape.lines, &accepted);
        assert_eq!(alone, (last.clone(), findings), "{events:?}");
        no_bytes.add(accepted.iter().copied());
        orders::count(&mut orders, accepted.iter().copied());
        for refusal in given.iter().filter_map(|result| result.err()) {
            refused[usize::from(refusal.number)] += 1;
        }
        if small_enough(shape.lines, &accepted) {
            let enumerated = give_all::<History>(shape.lines, &events);
            assert_eq!(enumerated, (last, given), "{events:?}");
            lists += 1;
        }
    }
    println!("{lists} lists compared both ways, refused {refused:?}");
    assert!(lists >= 2_000, "{lists}");
    println!("no bytes, accepted: {no_bytes}");
    assert!(no_bytes.least() > 100, "{no_bytes}");
    println!("orders, accepted: {orders:?} {:?}", orders::SORTS);
    assert_eq!(orders[orders::SHARE], 0);
    assert!(orders[orders::TOUCH] > 100 && orders[orders::NO_BYTE_INSIDE] > 100);
    assert_eq!(refused[8], 0);
    for number in [9, 11, 12, 18] {
        assert!(
            refused[number] > 50,
            "refused by {number}: {}",
            refused[number]
        );
    }
}

/// The accepted events and their findings.
fn accepted(
    events: &[Event],
    given: &[Result<Finding, Refusal>],
) -> (Vec<Event>, Vec<Result<Finding, Refusal>>) {
    let pairs = events.iter().zip(given);
    pairs.filter(|(_, result)| result.is_ok()).unzip()
}

fn small_enough(lines: u16, events: &[Event]) -> bool {
    let with_site = |&event| Record { event, site: SITE };
    let records: Vec<Record> = events.iter().map(with_site).collect();
    images::small_enough_events(lines, &records)
}

// The calls file and the text of its answers.

fn build() -> Calls {
    Calls::build().expect("the two ways agree")
}

#[test]
fn stored_calls_are_the_same() {
    let stored = Path::new(env!("CARGO_MANIFEST_DIR")).join("../crates/engine_runs");
    let (stdin, stdout) = (stored.join("stdin"), stored.join("stdout"));
    let calls = build();
    let stored = std::fs::read(stdin).expect("the stored calls are readable");
    assert!(stored == calls.to_bytes(), "the stored calls differ");
    let stored = std::fs::read(stdout).expect("the stored answers are readable");
    assert!(
        stored == calls.numbers().into_bytes(),
        "the stored answers differ"
    );
}

#[test]
fn calls_are_the_same_each_time() {
    let (one, other) = (build(), build());
    assert_eq!(one.to_bytes(), other.to_bytes());
    assert_eq!(one.numbers(), other.numbers());
}

#[test]
fn calls_read_back() {
    let made = build();
    let bytes = made.to_bytes();
    let calls: Vec<Call> = made.calls().collect();
    assert_eq!(calls::read(&bytes), Some(calls.clone()));
    assert_eq!(calls::read(&bytes[..bytes.len() - 1]), None);
    // Every answer from the file alone is the one in the text, in the same order.
    let answers = calls::answers::<Run>(&calls);
    let printed = calls.iter().zip(answers);
    let lines = printed.filter_map(|(call, answer)| Some(format!("{call}: {}", answer?)));
    assert!(lines.eq(made.text().lines()));
}

/// Every call has one kind, and no field that it lacks is set.
#[test]
fn bytes_of_calls() {
    let of = |event| Call::Give(Record { event, site: 513 });
    let (a, b) = (Range::new(258, 3), Range::new(4, 1_029));
    let written = [
        (of(Event::Store(a)), [1, 0, 2, 1, 3, 0, 0, 0, 0, 0, 1, 2]),
        (of(Event::Fence), [3, 0, 0, 0, 0, 0, 0, 0, 0, 0, 1, 2]),
        (
            of(Event::Ordered(a, b)),
            [8, 0, 2, 1, 3, 0, 4, 0, 5, 4, 1, 2],
        ),
        (Call::Fresh(258), [16, 0, 2, 1, 0, 0, 0, 0, 0, 0, 0, 0]),
        (Call::Ask(65_534), [17, 0, 254, 255, 0, 0, 0, 0, 0, 0, 0, 0]),
        (Call::Close, [18, 0, 0, 0, 0, 0, 0, 0, 0, 0, 0, 0]),
        (
            Call::Fences(30_000),
            [19, 0, 48, 117, 0, 0, 0, 0, 0, 0, 0, 0],
        ),
        (Call::Exposure, [20, 0, 0, 0, 0, 0, 0, 0, 0, 0, 0, 0]),
    ];
    for (call, bytes) in written {
        assert_eq!(call.to_bytes(), bytes);
        assert_eq!(Call::from_bytes(&bytes), Some(call));
    }
}

#[test]
fn kinds_and_fields_of_calls() {
    for kind in 0..=255 {
        let mut bytes = [0; 12];
        bytes[0] = kind;
        let known = matches!(kind, 1..=8 | 16..=20 | 32..=37 | 64..=127);
        assert_eq!(Call::from_bytes(&bytes).is_some(), known, "kind {kind}");
    }
    for kind in (16..=20).chain(32..=37).chain(64..=127) {
        for at in 1..12 {
            let mut bytes = [0; 12];
            (bytes[0], bytes[at]) = (kind, 1);
            let has = match kind {
                18 | 20 | 36 => false,
                16..=19 | 35 => (2..4).contains(&at),
                // 65,536 bytes are in the bounds, 2^24 are not.
                32 | 34 => (2..5).contains(&at),
                33 => (2..5).contains(&at) || at == 6,
                _ => true,
            };
            assert_eq!(Call::from_bytes(&bytes).is_some(), has, "{bytes:?}");
        }
    }
}

/// A writer's numbers, all of them different.
const ANY_WRITER: Writer = Writer {
    lines: 258,
    offset: 0x0403_0201,
    count: 0xffff_fffe,
    open: 255,
};
const UNKNOWN: [u8; 12] = [63, 0, 2, 1, 3, 0, 0, 0, 0, 0, 5, 0];

/// Calls of the writer, their bytes and their words.
const OF_WRITER: [(Call, [u8; 12], &str); 9] = [
    (
        Call::Area(65_600),
        [32, 0, 64, 0, 1, 0, 0, 0, 0, 0, 0, 0],
        "area 65600",
    ),
    (
        Call::Preamble(258, 9),
        [33, 0, 2, 1, 0, 0, 9, 0, 0, 0, 0, 0],
        "preamble 258 from 9",
    ),
    (
        Call::PreambleOfArea(28),
        [34, 0, 28, 0, 0, 0, 0, 0, 0, 0, 0, 0],
        "preamble of area 28",
    ),
    (
        Call::Start(258),
        [35, 0, 2, 1, 0, 0, 0, 0, 0, 0, 0, 0],
        "start 258",
    ),
    (
        Call::Finish,
        [36, 0, 0, 0, 0, 0, 0, 0, 0, 0, 0, 0],
        "finish",
    ),
    (
        Call::Writer(ANY_WRITER),
        [37, 255, 2, 1, 1, 2, 3, 4, 254, 255, 255, 255],
        "writer 258 67305985 4294967294 255",
    ),
    (
        Call::Write([1, 0, 2, 1, 3, 0, 0, 0, 0, 0, 5, 0]),
        [65, 0, 2, 1, 3, 0, 0, 0, 0, 0, 5, 0],
        "write store 258/3",
    ),
    (
        Call::Write([1, 255, 2, 1, 3, 0, 0, 0, 0, 0, 5, 0]),
        [65, 255, 2, 1, 3, 0, 0, 0, 0, 0, 5, 0],
        "write record",
    ),
    (
        Call::Write(UNKNOWN),
        [127, 0, 2, 1, 3, 0, 0, 0, 0, 0, 5, 0],
        "write record",
    ),
];

#[test]
fn calls_of_the_writer() {
    for (call, bytes, words) in OF_WRITER {
        assert_eq!(call.to_bytes(), bytes);
        assert_eq!(Call::from_bytes(&bytes), Some(call));
        assert_eq!(call.to_string(), words);
        if words != "write record" {
            assert_eq!(Call::parse(5, words), Ok(call));
        }
        assert!(call.is_of_writer());
    }
    let words = "write record 3f 00 02 01 03 00 00 00 00 00 05 00";
    assert_eq!(Call::parse(5, words), Ok(Call::Write(UNKNOWN)));
    // One byte more than an area or a preamble may have.
    for kind in 32..=34 {
        let bytes = [kind, 0, 65, 0, 1, 0, 0, 0, 0, 0, 0, 0];
        assert_eq!(Call::from_bytes(&bytes), None);
    }
}

#[test]
fn calls_cover_every_answer() {
    let made = build();
    let counts = Counts::of(&made);
    let some = |name: &'static str, sort: Sort, least: usize| {
        let count = counts.count(name, sort);
        assert!(count >= least, "{name}: {sort:?}: {count}");
    };
    some("fresh", Sort::Refused(4), 10);
    some("ask", Sort::Refused(9), 10);
    some("close", Sort::Refused(13), 10);
    for number in [9, 18, 10, 11, 12] {
        some("event", Sort::Refused(number), 10);
    }
    assert_eq!(counts.count("event", Sort::Refused(8)), 0);
    for kind in Kind::ALL {
        some("event", Sort::Finding(kind.number()), 30);
    }
    let open = [Sort::Open, Sort::OpenWrittenBack, Sort::OpenAgain];
    for sort in [Sort::NoInterval, Sort::Closed].into_iter().chain(open) {
        some("ask", sort, 100);
    }
    for sort in [Sort::Whole, Sort::WithRemainder, Sort::Refused(17)] {
        some("exposure", sort, 50);
    }
    let both = made.entries.iter().filter(|entry| entry.both_ways).count();
    assert!(both >= 150, "{both} runs both ways");
}

#[test]
fn calls_of_the_writer_cover_every_answer() {
    let made = build();
    let counts = Counts::of(&made);
    let some = |name: &'static str, sort: Sort, least: usize| {
        let count = counts.count(name, sort);
        assert!(count >= least, "{name}: {sort:?}: {count}");
    };
    some("start", Sort::Taken, 100);
    for number in [2, 4, 15] {
        some("start", Sort::Refused(number), 5);
    }
    some("write", Sort::Taken, 1_000);
    for number in [2, 6, 7, 9, 18, 11, 12, 15] {
        some("write", Sort::Refused(number), 10);
    }
    // 2 comes before 10, and 8 is no longer given.
    assert_eq!(counts.count("write", Sort::Refused(10)), 0);
    assert_eq!(counts.count("write", Sort::Refused(8)), 0);
    some("finish", Sort::Length, 200);
    for number in [13, 15] {
        some("finish", Sort::Refused(number), 50);
    }
    for name in ["area", "preamble", "preamble of area", "writer"] {
        some(name, Sort::Silent, 20);
    }
    let closed = made.closed();
    assert!(closed.files >= 200 && closed.by_images >= 200, "{closed:?}");
}

#[test]
fn calls_stay_in_their_bounds() {
    let made = build();
    let of_writer = made.calls().filter(|call| call.is_of_writer()).count();
    let on_runs = made.calls().count() - of_writer;
    assert!((5_000..=16_000).contains(&on_runs), "{on_runs}");
    assert!((2_000..=4_000).contains(&of_writer), "{of_writer}");
    assert!(made.to_bytes().len() <= 230_000);
    assert!(made.text().len() <= 640_000);
    for entry in &made.entries {
        let (first, others) = entry.case.calls.split_first().expect("a run has calls");
        if entry.case.is_of_writer() {
            assert!(matches!(first, Call::Area(_)));
            assert!(others.iter().all(|call| call.is_of_writer()));
        } else {
            assert!(matches!(first, Call::Fresh(_)));
            let on_run = |call: &Call| !matches!(call, Call::Fresh(_)) && !call.is_of_writer();
            assert!(others.iter().all(on_run));
        }
    }
    // The calls of the writer come last.
    let kinds = made.entries.iter().map(|entry| entry.case.is_of_writer());
    assert!(kinds.is_sorted());
}

/// No answer depends on a case before: the preamble is set before a start, and a writer is there
/// before a record is given or a file closed.
#[test]
fn cases_of_the_writer_stand_alone() {
    let made = build();
    let cases = made.entries.iter();
    for entry in cases.filter(|entry| entry.case.is_of_writer()) {
        let (mut preamble, mut writer) = (false, false);
        for (call, answer) in entry.case.calls.iter().zip(&entry.answers) {
            match call {
                Call::Preamble(..) | Call::PreambleOfArea(_) => preamble = true,
                Call::Writer(_) => writer = true,
                Call::Start(_) => {
                    assert!(preamble, "{:?}", entry.case);
                    writer |= matches!(answer, Some(Answer::Writer(Ok(_), _)));
                }
                Call::Write(_) | Call::Finish => assert!(writer, "{:?}", entry.case),
                _ => {}
            }
        }
    }
}

/// The lines of a text but those that name a run.
fn answers_of(text: &str) -> Vec<&str> {
    let lines = text.lines();
    lines.filter(|line| !line.starts_with("run: ")).collect()
}

/// The lines of a group of runs, from the given way.
fn group_lines<W: Way>(made: &Calls, group: &str) -> Vec<String> {
    let entries = made
        .entries
        .iter()
        .filter(|entry| entry.case.group == group);
    let lines = entries.flat_map(|entry| {
        let calls = &entry.case.calls;
        let answers: Vec<Option<Answer>> = calls::answers::<W>(calls);
        let printed = calls.iter().zip(answers);
        printed.filter_map(|(call, answer)| Some(format!("{call}: {}", answer?)))
    });
    lines.collect()
}

#[test]
fn runs_written_by_hand() {
    let made = build();
    for (group, text, count) in [
        ("limits", LIMITS, 102),
        ("intervals", INTERVALS, 85),
        ("no bytes", NO_BYTES, 253),
    ] {
        let expected = answers_of(text);
        assert_eq!(expected.len(), count);
        assert_eq!(group_lines::<Run>(&made, group), expected);
        assert_eq!(group_lines::<History>(&made, group), expected);
    }
}

/// The runs with the events of intervals: those of few events both ways, all of them the direct way.
#[test]
fn events_written_by_hand() {
    let made = build();
    let expected = answers_of(EVENTS);
    let (few, late) = ("events of intervals", "late events of intervals");
    let lines = [
        group_lines::<Run>(&made, few),
        group_lines::<Run>(&made, late),
    ];
    assert_eq!([lines[0].len(), lines[1].len()], [217, 47]);
    assert_eq!(lines.concat(), expected);
    assert_eq!(group_lines::<History>(&made, few), lines[0]);
}

/// The runs with exposures: those of few events both ways, all of them the direct way.
#[test]
fn exposures_written_by_hand() {
    let made = build();
    let expected = answers_of(EXPOSURES);
    assert_eq!(expected.len(), 435);
    let (few, many) = ("exposure", "exposure long");
    let lines = [
        group_lines::<Run>(&made, few),
        group_lines::<Run>(&made, many),
    ];
    assert_eq!(lines.concat(), expected);
    assert_eq!(group_lines::<History>(&made, few), lines[0]);
    let both = |group: &str| {
        let mut entries = made.entries.iter();
        entries.all(|entry| entry.case.group != group || entry.both_ways)
    };
    assert!(both(few));
}

/// The runs with orders between ranges that share a byte. All but the one of many fences are answered
/// by images too when they are made.
#[test]
fn shared_bytes_written_by_hand() {
    let made = build();
    let expected = answers_of(SHARED);
    assert_eq!(expected.len(), 202);
    assert_eq!(group_lines::<Run>(&made, "shared"), expected);
    let entries = made.entries.iter();
    let group: Vec<_> = entries.filter(|e| e.case.group == "shared").collect();
    let both_ways = group.iter().filter(|entry| entry.both_ways);
    assert_eq!((group.len(), both_ways.count()), (16, 15));
}

/// Exposures in between change no other answer.
#[test]
fn exposures_change_nothing() {
    let made = build();
    let mut asked = 0;
    for entry in made
        .entries
        .iter()
        .filter(|entry| entry.case.group.starts_with("exposure"))
    {
        let is_exposure = |call: &Call| matches!(call, Call::Exposure);
        let calls = entry.case.calls.iter();
        let others: Vec<Call> = calls.clone().copied().filter(|c| !is_exposure(c)).collect();
        let kept = calls.zip(&entry.answers).filter(|(c, _)| !is_exposure(c));
        let kept: Vec<Option<Answer>> = kept.map(|(_, answer)| answer.clone()).collect();
        assert_eq!(calls::answers::<Run>(&others), kept, "{:?}", entry.case);
        asked += entry.case.calls.len() - others.len();
    }
    println!("{asked} exposures");
    assert!(asked > 500, "{asked}");
}

/// The findings of the request's small runs and of its whole run, as the request has them.
const SMALL: [&str; 16] = [
    "persisted 0/128: finding 1 lost 0 kept 0 moment 0 store 0",
    "persisted 0/8: finding 2 lost 0 kept 0 moment 2 store 1",
    "persisted 0/8: finding 2 lost 0 kept 0 moment 3 store 1",
    "persisted 0/8: finding 1 lost 0 kept 0 moment 0 store 0",
    "write-back 0/8: finding 5 lost 0 kept 0 moment 0 store 0
persisted 0/8: finding 2 lost 0 kept 0 moment 4 store 2",
    "persisted 0/8: finding 2 lost 0 kept 0 moment 5 store 3",
    "ordered 0/8 before 8/8: finding 1 lost 0 kept 0 moment 0 store 0",
    "ordered 8/8 before 0/8: finding 3 lost 8 kept 0 moment 1 store 2",
    "ordered 60/4 before 64/4: finding 3 lost 60 kept 64 moment 1 store 1",
    "ordered 0/8 before 0/8: refused 18",
    "ordered 0/8 before 8/8: finding 3 lost 0 kept 8 moment 1 store 1",
    "store 0/8: finding 4 lost 0 kept 0 moment 0 store 0
end: finding 2 lost 0 kept 0 moment 3 store 2",
    "ordered 0/8 before 64/8: finding 3 lost 0 kept 64 moment 2 store 1
persisted 64/8: finding 2 lost 64 kept 0 moment 6 store 2
write-back 0/128: finding 6 lost 0 kept 0 moment 0 store 0
persisted 0/128: finding 1 lost 0 kept 0 moment 0 store 0",
    "store 121/8: refused 9",
    "begin: refused 12",
    "persisted 0/8: refused 10",
];

/// Every one of them is all that a run of the group has, but for events without a finding.
#[test]
fn small_runs() {
    let made = build();
    let small = made
        .entries
        .iter()
        .filter(|entry| entry.case.group == "small");
    let found: Vec<String> = small.map(|entry| found_in(&entry.text())).collect();
    for expected in SMALL {
        assert!(found.iter().any(|found| found == expected), "{expected}");
    }
}

/// The runs of torn stores, with the answers that stand beside them in the corpus.
#[test]
fn torn_stores() {
    let made = build();
    let torn = made
        .entries
        .iter()
        .filter(|entry| entry.case.group == "torn");
    let runs = torn::runs();
    assert_eq!(torn.clone().count(), runs.len());
    for (entry, run) in torn.zip(runs) {
        let script = run.read();
        let (fresh, events) = entry.case.calls.split_first().expect("a run has calls");
        assert_eq!(*fresh, Call::Fresh(run.lines));
        assert_eq!(events.len(), script.events.len());
        for (event, answer) in script.events.iter().zip(&entry.answers[1..]) {
            let Some(Answer::Finding(finding)) = answer else {
                panic!("{answer:?}: {run:?}");
            };
            let none = finding.kind == Kind::None;
            let expected = event.expect.map_or(none, |expect| expect.matches(finding));
            assert!(expected, "{finding:?}: {run:?}");
        }
    }
}

/// The runs of the corpus with ranges of no bytes, and with orders between ranges that share a byte,
/// with the answers that stand beside them.
#[test]
fn runs_of_the_corpus() {
    let made = build();
    compare_group(
        &made,
        "no bytes of the corpus",
        corpus::no_bytes::given_singly(),
    );
    compare_group(
        &made,
        "shared of the corpus",
        corpus::shared::given_singly(),
    );
}

fn compare_group(made: &Calls, group: &str, runs: Vec<corpus::run::Run>) {
    let entries = made
        .entries
        .iter()
        .filter(|entry| entry.case.group == group);
    assert_eq!(entries.clone().count(), runs.len());
    for (entry, run) in entries.zip(runs) {
        assert!(entry.both_ways, "{}", run.name);
        let expected = expected_lines(&run.read());
        let fresh = format!("fresh {}: taken", run.lines);
        let lines: Vec<String> = entry.text().lines().map(String::from).collect();
        assert_eq!(lines, [&[fresh][..], &expected].concat(), "{}", run.name);
    }
}

/// The lines of a script's events given singly, and of a closing, by what it expects of them. The
/// record that refuses the trace is the last one.
fn expected_lines(script: &Script) -> Vec<String> {
    let none = Expect {
        kind: Kind::None,
        fields: None,
    };
    let (mut lines, mut fences, mut found) = (Vec::new(), 0, 0);
    let (last, mut taken) = (script.events.len(), script.events.len());
    for (scripted, number) in script.events.iter().zip(1..) {
        let event = trace::read(&scripted.record).expect("a good record").event;
        let expect = scripted.expect.unwrap_or(none);
        let [lost, kept, moment, store] = expect.fields.unwrap_or([0; 4]);
        let answer = match (script.refused, expect.kind) {
            (Some(refusal), _) if refusal.record == number => {
                assert_eq!(number, last);
                taken -= 1;
                format!("refused {}", refusal.number)
            }
            (_, Kind::None) => "none".to_string(),
            (_, kind) => {
                found += 1;
                let kind = kind.number();
                format!("finding {kind} lost {lost} kept {kept} moment {moment} store {store}")
            }
        };
        fences += usize::from(event == Event::Fence);
        lines.push(format!("{event}: {answer}"));
    }
    lines.push(match script.refused {
        Some(refusal) if refusal.number == 13 => "close: refused 13".to_string(),
        _ => format!("close: events {taken} fences {fences} findings {found}"),
    });
    lines
}

/// Every kind of event with a range of no bytes is accepted, and refused by 9 and 10; the writer
/// takes it, and refuses it by 2, 9 and 15.
#[test]
fn calls_cover_ranges_of_no_bytes() {
    let made = build();
    let mut given: BTreeMap<u8, no_bytes::Counts> = BTreeMap::new();
    let mut written: BTreeMap<u8, no_bytes::Counts> = BTreeMap::new();
    for entry in &made.entries {
        for (call, answer) in entry.case.calls.iter().zip(&entry.answers) {
            let (counts, event) = match call {
                Call::Give(record) => (&mut given, Some(record.event)),
                Call::Write(bytes) => (&mut written, trace::read(bytes).ok().map(|r| r.event)),
                _ => continue,
            };
            counts.entry(number_of(answer)).or_default().add(event);
        }
    }
    for (name, counts) in [("given", &given), ("written", &written)] {
        for (number, counts) in counts.iter().filter(|(_, counts)| counts.sum() > 0) {
            let words = match number {
                0 => "accepted".to_string(),
                number => format!("refused by {number}"),
            };
            println!("no bytes {name}, {words}: {counts}");
        }
    }
    let least = |counts: &BTreeMap<u8, no_bytes::Counts>, number: u8| {
        counts.get(&number).map_or(0, no_bytes::Counts::least)
    };
    assert!(least(&given, 0) >= 30 && least(&given, 9) >= 3);
    assert!(least(&written, 0) >= 3 && least(&written, 9) >= 1);
    let some = |counts: &BTreeMap<u8, no_bytes::Counts>, numbers: &[u8]| {
        for number in numbers {
            let sum = counts.get(number).map_or(0, no_bytes::Counts::sum);
            assert!(sum > 0, "no bytes, answer {number}");
        }
    };
    some(&given, &[10, 11]);
    some(&written, &[2, 11, 15]);
}

/// Orders by how their ranges lie, given and written, by the answer's number; 0 for a finding or a
/// record that was taken.
type Orders = BTreeMap<u8, orders::Counts>;

#[test]
fn calls_cover_shared_bytes() {
    let made = build();
    let (mut given, mut written) = (Orders::new(), Orders::new());
    for entry in &made.entries {
        for (call, answer) in entry.case.calls.iter().zip(&entry.answers) {
            let (counts, event) = match call {
                Call::Give(record) => (&mut given, Some(record.event)),
                Call::Write(bytes) => (&mut written, trace::read(bytes).ok().map(|r| r.event)),
                _ => continue,
            };
            orders::count(counts.entry(number_of(answer)).or_default(), event);
        }
    }
    println!("orders given, by number: {given:?} {:?}", orders::SORTS);
    println!("orders written, by number: {written:?}");
    for (counts, numbers) in [(&given, &[9, 10][..]), (&written, &[2, 9, 15])] {
        let of = |number: u8, sort: usize| counts.get(&number).map_or(0, |counts| counts[sort]);
        assert_eq!(of(0, orders::SHARE), 0);
        assert!(of(0, orders::TOUCH) > 0 && of(0, orders::NO_BYTE_INSIDE) > 0);
        let shared = of(18, orders::SHARE);
        let refused = counts.get(&18).map_or(0, |counts| counts.iter().sum());
        assert!(shared > 0 && shared == refused);
        for &number in numbers {
            let all: usize = counts.get(&number).map_or(0, |counts| counts.iter().sum());
            assert!(all > 0, "no order refused by {number}");
        }
    }
    assert!(given[&9][orders::SHARE] > 0 && given[&10][orders::SHARE] == 0);
    assert!(written[&9][orders::SHARE] > 0 && written[&2][orders::SHARE] > 0);
    assert_eq!(written[&15][orders::SHARE], 0);
}

/// The number of a refusal, 0 for any other answer.
fn number_of(answer: &Option<Answer>) -> u8 {
    match answer {
        Some(Answer::Refused(number) | Answer::Writer(Err(number), _)) => *number,
        _ => 0,
    }
}

// Wrong rules, each found by the answers worked out by hand.

/// The number that a rule gives to an order, when so many events are taken.
type Rule = fn(window: usize, a: Range, b: Range, taken: usize) -> Option<u8>;

/// The first of these limits that is broken.
fn first_broken(limits: [(bool, u8); 3]) -> Option<u8> {
    let broken = limits.into_iter().find(|&(broken, _)| broken);
    broken.map(|(_, number)| number)
}

fn is_past(window: usize, a: Range, b: Range) -> bool {
    a.end() > window || b.end() > window
}

/// The rule with another test for 18.
fn with(window: usize, a: Range, b: Range, taken: usize, shared: bool) -> Option<u8> {
    let last = taken == 65_535;
    first_broken([(is_past(window, a, b), 9), (shared, 18), (last, 10)])
}

fn start(range: Range) -> usize {
    usize::from(range.address)
}

const RIGHT: Rule = |window, a, b, taken| with(window, a, b, taken, orders::share_a_byte(a, b));

const WRONG: [(&str, Rule); 9] = [
    ("neighbours refused", |window, a, b, taken| {
        let shared = a.has_bytes() && b.has_bytes() && start(a) <= b.end() && start(b) <= a.end();
        with(window, a, b, taken, shared)
    }),
    ("a shared last byte taken", |window, a, b, taken| {
        let shared = start(a).max(start(b)) + 1 < a.end().min(b.end());
        with(window, a, b, taken, shared)
    }),
    (
        "no byte inside the other range refused",
        |window, a, b, taken| {
            with(
                window,
                a,
                b,
                taken,
                start(a) < b.end() && start(b) < a.end(),
            )
        },
    ),
    (
        "no byte at the other range's start refused",
        |window, a, b, taken| {
            let shared = orders::share_a_byte(a, b) || start(a) == start(b);
            with(window, a, b, taken, shared)
        },
    ),
    ("only the same range refused", |window, a, b, taken| {
        with(window, a, b, taken, a == b && a.has_bytes())
    }),
    (
        "only a start inside the other range refused",
        |window, a, b, taken| with(window, a, b, taken, b.has_bytes() && a.covers(start(b))),
    ),
    ("18 before 9", |window, a, b, taken| {
        let (past, shared) = (is_past(window, a, b), orders::share_a_byte(a, b));
        first_broken([(shared, 18), (past, 9), (taken == 65_535, 10)])
    }),
    ("10 before 18", |window, a, b, taken| {
        let (past, shared) = (is_past(window, a, b), orders::share_a_byte(a, b));
        first_broken([(past, 9), (taken == 65_535, 10), (shared, 18)])
    }),
    ("10 before 9", |window, a, b, taken| {
        let (past, shared) = (is_past(window, a, b), orders::share_a_byte(a, b));
        first_broken([(taken == 65_535, 10), (past, 9), (shared, 18)])
    }),
];

/// How many orders of the group `shared` get another number by the rule.
fn differing(made: &Calls, rule: Rule) -> usize {
    let mut differing = 0;
    for entry in made.entries.iter().filter(|e| e.case.group == "shared") {
        let (mut window, mut taken) = (0, 0);
        for (call, answer) in entry.case.calls.iter().zip(&entry.answers) {
            let number = number_of(answer);
            match call {
                Call::Fresh(lines) if number == 0 => window = 64 * usize::from(*lines),
                Call::Fresh(_) => window = 64,
                Call::Fences(count) => taken += usize::from(*count),
                Call::Give(record) => {
                    if let Event::Ordered(a, b) = record.event {
                        let by_rule = rule(window, a, b, taken).unwrap_or(0);
                        differing += usize::from(by_rule != number);
                    }
                    taken += usize::from(number == 0);
                }
                _ => {}
            }
        }
    }
    differing
}

/// The answers of the group are those worked out by hand.
#[test]
fn wrong_rules_are_found() {
    let made = build();
    assert_eq!(differing(&made, RIGHT), 0);
    for (name, rule) in WRONG {
        let found = differing(&made, rule);
        println!("{name}: {found} orders differ");
        assert!(found > 0, "{name}");
    }
}

/// The lines of events with a finding or a refusal.
fn found_in(text: &str) -> String {
    let events = text.lines().filter(|line| {
        let call = line.split([' ', ':']).next();
        !matches!(call, Some("fresh" | "ask" | "close")) && !line.ends_with(": none")
    });
    events.collect::<Vec<_>>().join("\n")
}
