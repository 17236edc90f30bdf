//! The writer of traces: answers written by hand, the scripts of `papers`, what a judge says of
//! each event at its place, random lists of calls and the calls file against a model, and writers
//! of any numbers.

use reference::calls::{Call, Calls, Entry};
use reference::check::check;
use reference::corpus::{paper_scripts, papers_folder};
use reference::random::{self, Random};
use reference::script::Script;
use reference::trace::{self, assemble, encode, raw_record, raw_trailer, MARK, RECORD};
use reference::writer::{self, Writer};
use reference::{images, judge, judge_by_images, Event, Range, Record};
use std::collections::BTreeMap;

/// The answers to the runs of some groups of the calls file, under a line `group: NAME` for each
/// group and a line `run: NAME` for each run.
const WRITTEN: &str = include_str!("data/writer.txt");

const FENCE: [u8; RECORD] = [3, 0, 0, 0, 0, 0, 0, 0, 0, 0, 7, 0];
const BEGIN: [u8; RECORD] = [4, 0, 0, 0, 0, 0, 0, 0, 0, 0, 7, 0];
const END: [u8; RECORD] = [6, 0, 0, 0, 0, 0, 0, 0, 0, 0, 7, 0];
const LOG: [u8; RECORD] = [5, 0, 0, 0, 8, 0, 0, 0, 0, 0, 7, 0];

/// Bytes of an area that no call has laid down.
const BEFORE: u8 = 0xa5;

fn area(length: usize) -> Vec<u8> {
    vec![BEFORE; length]
}

fn numbers(lines: u16, offset: u32, count: u32, open: u16) -> Writer {
    Writer {
        lines,
        offset,
        count,
        open,
    }
}

// Answers written by hand.

#[test]
fn starts() {
    let mut here = area(5);
    let started = writer::start(&mut here, &[1, 2, 3], 64);
    assert_eq!(started, Ok(numbers(64, 3, 0, 0)));
    assert_eq!(here, [1, 2, 3, BEFORE, BEFORE]);
    assert_eq!(writer::start(&mut here, &[], 1), Ok(numbers(1, 0, 0, 0)));
    assert_eq!(here, [1, 2, 3, BEFORE, BEFORE]);
    // 4 before 2 before 15, and nothing is written.
    let refused = |length: usize, preamble: usize, lines: u16, number: u8| {
        let mut here = area(length);
        let started = writer::start(&mut here, &vec![7; preamble], lines);
        assert_eq!(started, Err(number), "{length} {preamble} {lines}");
        assert_eq!(here, area(length));
    };
    for lines in (0..=u16::MAX).filter(|lines| !(1..=64).contains(lines)) {
        refused(0, 1, lines, 4);
    }
    refused(0, 65_521, 65, 4);
    refused(70_000, 65_521, 0, 4);
    refused(70_000, 65_521, 1, 2);
    refused(0, 65_521, 64, 2);
    refused(65_519, 65_520, 64, 15);
    refused(0, 1, 1, 15);
    for length in [65_520, 65_521, 65_536] {
        let started = writer::start(&mut area(length), &vec![7; 65_520], 2);
        assert_eq!(started, Ok(numbers(2, 65_520, 0, 0)));
    }
}

#[test]
fn a_file_by_hand() {
    let mut here = area(45);
    let mut writer = writer::start(&mut here, &[9], 2).expect("started");
    let store = [1, 0, 120, 0, 8, 0, 0, 0, 0, 0, 254, 255];
    assert_eq!(writer::event(&mut here, &mut writer, &store), Ok(()));
    assert_eq!(writer, numbers(2, 1, 1, 0));
    assert_eq!(writer::event(&mut here, &mut writer, &BEGIN), Ok(()));
    assert_eq!(writer, numbers(2, 1, 2, 1));
    assert_eq!(writer::close(&mut here, &writer), Err(13));
    assert_eq!(writer::event(&mut here, &mut writer, &END), Ok(()));
    assert_eq!(writer, numbers(2, 1, 3, 0));
    assert_eq!(writer::close(&mut here, &writer), Err(15));
    let records = [&[9][..], &store, &BEGIN, &END].concat();
    assert_eq!(here, [&records[..], &area(8)].concat());
    let mut longer = [&here[..], &area(20)].concat();
    assert_eq!(writer::close(&mut longer, &writer), Ok(53));
    let trailer = [80, 84, 82, 65, 1, 0, 0, 0, 3, 0, 0, 0, 2, 0, 0, 0];
    assert_eq!(longer, [&records[..], &trailer, &area(12)].concat());
    // An event behind it takes the trailer's place; four bytes of the trailer stay.
    assert_eq!(writer::event(&mut longer, &mut writer, &FENCE), Ok(()));
    assert_eq!(writer, numbers(2, 1, 4, 0));
    let expected = [&records[..], &FENCE, &trailer[12..], &area(12)].concat();
    assert_eq!(longer, expected);
    assert_eq!(writer::close(&mut longer, &writer), Ok(65));
    let trailer = [80, 84, 82, 65, 1, 0, 0, 0, 4, 0, 0, 0, 2, 0, 0, 0];
    assert_eq!(longer, [&records[..], &FENCE, &trailer].concat());
    // Once more, and nothing changes.
    let before = longer.clone();
    assert_eq!(writer::close(&mut longer, &writer), Ok(65));
    assert_eq!(longer, before);
}

/// The event gets this number, and nothing is written.
fn refused(writer: Writer, length: usize, record: [u8; RECORD], number: u8) {
    let (mut here, mut after) = (area(length), writer);
    let given = writer::event(&mut here, &mut after, &record);
    assert_eq!(given, Err(number), "{writer:?} {length} {record:?}");
    assert_eq!((here, after), (area(length), writer));
}

/// Each number that an event can get, in its order.
#[test]
fn refused_events() {
    let mut unknown = [7; RECORD];
    unknown[0] = 9;
    let zero_set = raw_record(5, 1, Range::new(129, 0), Range::new(0, 0), 0);
    let lacking = raw_record(5, 0, Range::new(129, 0), Range::new(1, 0), 0);
    let past_empty = raw_record(5, 0, Range::new(129, 0), Range::new(0, 0), 0);
    let past = raw_record(5, 0, Range::new(127, 2), Range::new(0, 0), 0);
    let past_shared = raw_record(8, 0, Range::new(127, 2), Range::new(127, 2), 0);
    let shared = raw_record(8, 0, Range::new(127, 1), Range::new(120, 8), 0);
    let empty = raw_record(5, 0, Range::new(128, 0), Range::new(0, 0), 0);
    let broken = [
        (unknown, 6),
        (zero_set, 7),
        (lacking, 7),
        (past_empty, 9),
        (past, 9),
        (past_shared, 9),
        (shared, 18),
        (empty, 11),
        (LOG, 11),
        (END, 11),
    ];
    for (record, number) in broken {
        // The area is too short as well, or long enough.
        refused(numbers(2, 5, 1, 0), 28, record, number);
        refused(numbers(2, 5, 1, 0), 99, record, number);
        refused(numbers(2, 65_496, 0, 0), 28, record, number);
        // 2 comes before, also where the area is too short.
        refused(numbers(2, 65_509, 0, 0), 28, record, 2);
        refused(numbers(2, 0, 5_460, 0), 65_600, record, 2);
    }
    // 10 applies, but 2 comes before.
    for count in [65_534, 65_535, 65_536] {
        refused(numbers(2, 0, count, 0), 1_000_000, FENCE, 2);
    }
}

/// 12 and 15, by the transactions open and the length of the area.
#[test]
fn refused_begins() {
    for open in 8..=300 {
        refused(numbers(2, 5, 1, open), 28, BEGIN, 12);
        refused(numbers(2, 5, 1, open), 29, BEGIN, 12);
        refused(numbers(2, 65_509, 0, open), 70_000, BEGIN, 2);
    }
    for open in 0..8 {
        refused(numbers(2, 5, 1, open), 28, BEGIN, 15);
    }
    for record in [LOG, END, FENCE, BEGIN] {
        refused(numbers(2, 5, 1, 1), 28, record, 15);
        refused(numbers(2, 65_508, 0, 1), 65_519, record, 15);
    }
}

/// The lines of each group in the text, but those that name a run.
fn written_groups() -> Vec<(&'static str, Vec<&'static str>)> {
    let mut groups: Vec<(&str, Vec<&str>)> = Vec::new();
    for line in WRITTEN.lines() {
        if let Some(name) = line.strip_prefix("group: ") {
            groups.push((name, Vec::new()));
        } else if !line.starts_with("run: ") {
            groups.last_mut().expect("a group comes first").1.push(line);
        }
    }
    groups
}

#[test]
fn calls_written_by_hand() {
    let made = Calls::build().expect("the calls are made");
    let mut compared = 0;
    for (group, expected) in written_groups() {
        let entries = made
            .entries
            .iter()
            .filter(|entry| entry.case.group == group);
        let text: String = entries.map(|entry| entry.text()).collect();
        assert_eq!(text.lines().collect::<Vec<_>>(), expected, "{group}");
        compared += expected.len();
    }
    println!("{compared} answers written by hand");
    assert_eq!(compared, 604);
}

// Files that other code makes too.

/// The scripts of `papers` that are accepted give the same file.
#[test]
fn papers() {
    let mut compared = 0;
    for path in paper_scripts(&papers_folder()).expect("the folder is readable") {
        let text = std::fs::read_to_string(&path).expect("a script is readable");
        let script = Script::parse(&text).expect("a script is good");
        if check(&script).outcome.report().is_none() {
            continue;
        }
        let file = script.trace();
        let read = |event: &reference::script::Scripted| trace::read(&event.record);
        let records: Vec<Record> = script.events.iter().flat_map(read).collect();
        assert_eq!(trace::write(script.lines, &script.free, &records), file);
        let mut here = area(file.len() + 3);
        let mut writer = writer::start(&mut here, &script.free, script.lines).expect("started");
        for event in &script.events {
            let given = writer::event(&mut here, &mut writer, &event.record);
            assert_eq!(given, Ok(()), "{}", path.display());
        }
        assert_eq!(writer::close(&mut here, &writer), Ok(file.len()));
        assert_eq!(here, [&file[..], &area(3)].concat(), "{}", path.display());
        compared += 1;
    }
    println!("{compared} scripts of papers");
    assert!(compared > 150, "{compared}");
}

/// The longest file: 5,460 records, and one more gets 2.
#[test]
fn the_longest_file() {
    let mut here = area(70_000);
    let mut writer = writer::start(&mut here, &[], 64).expect("started");
    for _ in 0..5_460 {
        assert_eq!(writer::event(&mut here, &mut writer, &FENCE), Ok(()));
    }
    assert_eq!(writer::event(&mut here, &mut writer, &FENCE), Err(2));
    assert_eq!(writer::close(&mut here, &writer), Ok(65_536));
    let file = assemble(64, &[], &[FENCE; 5_460]);
    assert_eq!(here, [&file[..], &area(70_000 - 65_536)].concat());
    let events = judge(&file, 65_520).report().map(|r| r.totals.events);
    assert_eq!(events, Some(5_460));
}

/// Records of every kind with ranges at the edges, given when so many transactions are open: each
/// gets the number that the judge gives it at that place, or is taken.
#[test]
fn events_get_the_number_of_the_judge() {
    let edges = [
        (0, 0),
        (0, 1),
        (128, 0),
        (129, 0),
        (127, 1),
        (127, 2),
        (65_535, 0),
        (65_535, 1),
    ];
    let ranges = edges.map(|(address, length)| Range::new(address, length));
    let mut counts = [0; 19];
    for open in 0..=8 {
        let mut records = vec![BEGIN; open];
        let writer = numbers(2, 3, open as u32, open as u16);
        for kind in (0..=10).chain([64, 255]) {
            for (zero, a, b) in fields(&ranges) {
                records.push(raw_record(kind, zero, a, b, 5));
                let number = number_of_the_judge(&assemble(2, &[1; 3], &records));
                let record = records.pop().expect("a record");
                let (mut here, mut after) = (area(200), writer);
                let given = writer::event(&mut here, &mut after, &record);
                assert_eq!(given.err(), number, "{open} open: {record:?}");
                counts[usize::from(number.unwrap_or(0))] += 1;
            }
        }
    }
    println!("taken, and refused by 1 to 18: {counts:?}");
    for number in [0, 6, 7, 9, 11, 12, 18] {
        assert!(counts[number] > 0, "{number}");
    }
    assert_eq!(counts[8], 0);
}

/// The zero byte and two ranges, in every combination.
fn fields(ranges: &[Range]) -> Vec<(u8, Range, Range)> {
    let pairs = ranges
        .iter()
        .flat_map(|&a| ranges.iter().map(move |&b| (a, b)));
    pairs.flat_map(|(a, b)| [(0, a, b), (1, a, b)]).collect()
}

/// The number that the judge gives to the last record of a trace whose other records are good, or
/// to the trace for its length.
fn number_of_the_judge(file: &[u8]) -> Option<u8> {
    let refusal = judge(file, usize::MAX).refusal()?;
    if refusal.number == 13 {
        return None;
    }
    let last = (file.len() - 16) / RECORD;
    assert!(refusal.number == 2 || refusal.record <= last);
    Some(refusal.number)
}

// Random lists of calls, against a model.

/// Keeps what was accepted, and makes the file anew at each call.
struct Model {
    area: Vec<u8>,
    lines: u16,
    preamble: Vec<u8>,
    records: Vec<Record>,
}

impl Model {
    fn file(&self) -> Vec<u8> {
        trace::write(self.lines, &self.preamble, &self.records)
    }

    fn start(&mut self, preamble: &[u8], lines: u16) -> Result<(), u8> {
        if lines == 0 || lines > 64 {
            return Err(4);
        }
        if let Some(number) = number_of_the_judge(&assemble(lines, preamble, &[])) {
            return Err(number);
        }
        if self.area.len() < preamble.len() {
            return Err(15);
        }
        (self.lines, self.preamble) = (lines, preamble.to_vec());
        self.records.clear();
        self.area[..preamble.len()].copy_from_slice(preamble);
        Ok(())
    }

    fn event(&mut self, record: &[u8; RECORD]) -> Result<(), u8> {
        let mut records: Vec<[u8; RECORD]> = self.records.iter().map(encode).collect();
        records.push(*record);
        let file = assemble(self.lines, &self.preamble, &records);
        if let Some(number) = number_of_the_judge(&file) {
            return Err(number);
        }
        let end = file.len() - 16;
        if self.area.len() < end {
            return Err(15);
        }
        self.area[..end].copy_from_slice(&file[..end]);
        self.records.push(trace::read(record)?);
        Ok(())
    }

    fn close(&mut self) -> Result<usize, u8> {
        let file = self.file();
        if let Some(refusal) = judge(&file, RECORD * self.records.len()).refusal() {
            return Err(refusal.number);
        }
        if self.area.len() < file.len() {
            return Err(15);
        }
        self.area[..file.len()].copy_from_slice(&file);
        Ok(file.len())
    }

    /// The numbers that the writer has to have.
    fn writer(&self) -> Writer {
        let count = |event| {
            let same = self.records.iter().filter(|record| record.event == event);
            same.count() as u16
        };
        Writer {
            lines: self.lines,
            offset: self.preamble.len() as u32,
            count: self.records.len() as u32,
            open: count(Event::Begin) - count(Event::End),
        }
    }
}

/// How often a call got an answer; 0 stands for taken.
type Counts = BTreeMap<(&'static str, u8), usize>;

/// The writer and the model side by side.
struct Pair<'a> {
    area: Vec<u8>,
    writer: Writer,
    model: Model,
    counts: &'a mut Counts,
}

impl<'a> Pair<'a> {
    /// Starts a file in a fresh area; the start must not be refused.
    fn new(length: usize, preamble: &[u8], lines: u16, counts: &'a mut Counts) -> Pair<'a> {
        let mut here = area(length);
        let mut model = Model {
            area: area(length),
            lines,
            preamble: Vec::new(),
            records: Vec::new(),
        };
        let writer = writer::start(&mut here, preamble, lines).expect("started");
        assert_eq!(model.start(preamble, lines), Ok(()));
        Pair {
            area: here,
            writer,
            model,
            counts,
        }
    }

    /// Compares what is left after a call, and counts its answer.
    fn compare<T>(&mut self, call: &'static str, result: Result<T, u8>) {
        assert_eq!(self.writer, self.model.writer(), "{call}");
        assert!(self.area == self.model.area, "{call}: the areas differ");
        let number = result.err().unwrap_or(0);
        *self.counts.entry((call, number)).or_insert(0) += 1;
    }

    fn start(&mut self, preamble: &[u8], lines: u16) {
        let started = writer::start(&mut self.area, preamble, lines);
        let expected = self.model.start(preamble, lines);
        assert_eq!(started.map(|_| ()), expected);
        self.writer = started.unwrap_or(self.writer);
        self.compare("start", started);
    }

    fn event(&mut self, record: &[u8; RECORD]) {
        let given = writer::event(&mut self.area, &mut self.writer, record);
        assert_eq!(given, self.model.event(record), "{record:?}");
        self.compare("event", given);
    }

    fn close(&mut self) {
        let closed = writer::close(&mut self.area, &self.writer);
        assert_eq!(closed, self.model.close());
        if let Ok(length) = closed {
            self.read_back(length);
        }
        self.compare("close", closed);
    }

    /// The file is judged by images too, and has the preamble and the events.
    fn read_back(&self, length: usize) {
        let (file, model) = (&self.area[..length], &self.model);
        if images::small_enough(file) {
            let outcome = judge_by_images(file, RECORD * model.records.len());
            assert!(outcome.report().is_some());
        }
        let body = trace::open(file).expect("the trailer is good");
        assert_eq!((body.lines, body.free), (model.lines, &model.preamble[..]));
        let records = body.record_bytes().map(trace::read);
        assert!(records.eq(model.records.iter().map(|&record| Ok(record))));
    }
}

/// A preamble: none, short, or one that leaves room for some records.
fn any_preamble(random: &mut Random) -> Vec<u8> {
    let length = match random.below(24) {
        0..=3 => 0,
        4 => 65_520 - random.below(150),
        _ => random.below(41),
    };
    (0..length).map(|_| random.bits() as u8).collect()
}

/// Events that are accepted without the others; between them records with fields at the edges, begins
/// up to one too many, and orders between ranges near each other.
fn any_records(random: &mut Random, lines: u16) -> Vec<[u8; RECORD]> {
    let shape = random::Shape {
        lines,
        ..random::small_shape(random)
    };
    let mut records = Vec::new();
    for record in random::events(random, &shape) {
        while random.chance(1, 3) {
            records.push(edge_record(random));
        }
        if random.chance(1, 100) {
            records.extend([BEGIN; 9]);
            records.extend([END; 8]);
        }
        records.push(encode(&record));
        if let (Some(a), true) = (record.event.range_a(), random.chance(1, 6)) {
            let event = Event::Ordered(a, random::near(random, a));
            records.push(encode(&Record { event, site: 9 }));
        }
    }
    records
}

/// A record with fields at the edges of what is allowed.
fn edge_record(random: &mut Random) -> [u8; RECORD] {
    let edges = [0, 0, 1, 8, 63, 64, 65, 128, 4_095, 4_096, u16::MAX];
    let mut range = || Range::new(random.pick(&edges), random.pick(&edges));
    let (a, b, nothing) = (range(), range(), Range::new(0, 0));
    let kind = random.pick(&[0, 1, 2, 3, 4, 4, 4, 5, 5, 6, 6, 7, 8, 9, 255]);
    let a = match kind {
        3 | 4 | 6 if random.chance(4, 5) => nothing,
        _ => a,
    };
    let b = match kind {
        1..=7 if random.chance(4, 5) => nothing,
        _ => b,
    };
    let zero = random.pick(&[0, 0, 0, 0, 0, 0, 0, 0, 1, 255]);
    raw_record(kind, zero, a, b, random.bits() as u16)
}

/// A start in the same area, with a preamble of its own or with one from the area.
fn start_again(random: &mut Random, pair: &mut Pair) {
    let lines = random.pick(&[0, 1, 2, 63, 64, 65, 257, u16::MAX]);
    let preamble = match random.below(4) {
        0 => pair.area[..random.below(pair.area.len() + 1)].to_vec(),
        1 => vec![1; random.pick(&[pair.area.len() + 1, 65_520, 65_521, 70_000])],
        _ => any_preamble(random),
    };
    pair.start(&preamble, lines);
}

#[test]
fn random_calls() {
    let mut random = Random::new(31);
    let mut counts = Counts::new();
    for _ in 0..1_500 {
        let lines = random.pick(&[1, 1, 2, 2, 2, 3, 63, 64]);
        let preamble = any_preamble(&mut random);
        let records = any_records(&mut random, lines);
        let needed = 16 + RECORD * records.len();
        let length = preamble.len() + random.below(needed + 20);
        let mut pair = Pair::new(length, &preamble, lines, &mut counts);
        for record in &records {
            pair.event(record);
            if random.chance(1, 6) {
                pair.close();
            }
            if random.chance(1, 20) {
                start_again(&mut random, &mut pair);
            }
        }
        pair.close();
    }
    println!("calls by answer, 0 for taken: {counts:?}");
    let some = |call, numbers: &[u8]| {
        for &number in numbers {
            let count = counts.get(&(call, number)).copied().unwrap_or(0);
            assert!(count >= 50, "{call}: {number}: {count}");
        }
    };
    some("start", &[0, 2, 4, 15]);
    some("event", &[0, 2, 6, 7, 9, 18, 11, 12, 15]);
    assert_eq!(counts.get(&("event", 8)), None);
    some("close", &[0, 13, 15]);
}

// The cases of the calls file, against the model.

/// The area, the preamble of the next start, and the model once a start is taken.
#[derive(Default)]
struct Replay {
    area: Vec<u8>,
    preamble: Vec<u8>,
    model: Option<Model>,
}

impl Replay {
    /// Sets what a call without an answer sets. What the model knows ends with its area, and where
    /// a writer of any numbers takes the writer's place.
    fn set(&mut self, call: Call) {
        match call {
            Call::Area(length) => {
                self.area = area(length as usize);
                self.model = None;
            }
            Call::Preamble(length, from) => {
                let byte = |at| ((u32::from(from) + 7 * at) % 256) as u8;
                self.preamble = (0..length).map(byte).collect();
            }
            Call::PreambleOfArea(length) => self.preamble = self.area[..length as usize].to_vec(),
            Call::Writer(_) => self.model = None,
            _ => panic!("{call} has an answer"),
        }
    }

    /// The line of a call with an answer; `None` if the model does not know the writer.
    fn line(&mut self, call: Call) -> Option<String> {
        let answer = match (call, &mut self.model) {
            (Call::Start(lines), _) => self.start(lines).map(|()| "taken".to_string()),
            (Call::Write(record), Some(model)) => {
                model.event(&record).map(|()| "taken".to_string())
            }
            (Call::Finish, Some(model)) => model.close().map(|length| format!("length {length}")),
            _ => return None,
        };
        let answer = answer.unwrap_or_else(|number| format!("refused {number}"));
        let before = self.area.clone();
        if let Some(model) = &self.model {
            self.area.clone_from(&model.area);
        }
        Some(format!("{call}: {answer}{}", change(&before, &self.area)))
    }

    fn start(&mut self, lines: u16) -> Result<(), u8> {
        let mut model = Model {
            area: self.area.clone(),
            lines,
            preamble: Vec::new(),
            records: Vec::new(),
        };
        model.start(&self.preamble, lines)?;
        self.model = Some(model);
        Ok(())
    }
}

/// The words for what differs between two areas.
fn change(before: &[u8], after: &[u8]) -> String {
    let pairs = before.iter().zip(after).enumerate();
    let differ = pairs.filter(|(_, (one, other))| one != other);
    let places: Vec<usize> = differ.map(|(at, _)| at).collect();
    let (Some(&first), Some(&last)) = (places.first(), places.last()) else {
        return String::new();
    };
    let bytes = &after[first..=last];
    if bytes.len() <= 16 {
        let words: String = bytes.iter().map(|byte| format!(" {byte}")).collect();
        return format!(" at {first}:{words}");
    }
    let mut sum = 0_u64;
    for &byte in bytes {
        sum = (31 * sum + u64::from(byte)) % 65_536;
    }
    format!(" at {first} to {last} sum {sum}")
}

/// Compares the lines of a case up to where the model does not know the writer, and gives the
/// number of those compared.
fn compare_case(entry: &Entry) -> usize {
    let mut replay = Replay::default();
    let mut compared = 0;
    for (call, answer) in entry.case.calls.iter().zip(&entry.answers) {
        let Some(answer) = answer else {
            replay.set(*call);
            continue;
        };
        let Some(line) = replay.line(*call) else {
            break;
        };
        assert_eq!(format!("{call}: {answer}"), line, "{}", entry.case.group);
        compared += 1;
    }
    compared
}

#[test]
fn calls_by_the_model() {
    let made = Calls::build().expect("the calls are made");
    let entries = || {
        made.entries
            .iter()
            .filter(|entry| entry.case.is_of_writer())
    };
    let compared: usize = entries().map(compare_case).sum();
    let answers = entries().flat_map(|entry| &entry.answers);
    let all = answers.filter(|answer| answer.is_some()).count();
    println!("{compared} of {all} answers by the model");
    assert!(compared > all * 9 / 10 && compared < all);
}

// Writers of any numbers.

const EDGES: [u32; 16] = [
    0,
    1,
    12,
    28,
    5_458,
    5_459,
    5_460,
    5_461,
    65_508,
    65_509,
    65_535,
    65_584,
    0x1555_5555,
    0x4000_0000,
    u32::MAX - 15,
    u32::MAX,
];

/// The area with bytes laid down at a place; `None` if it is too short for them.
fn laid(length: usize, at: u128, bytes: &[u8]) -> Option<Vec<u8>> {
    let mut here = area(length);
    let at = usize::try_from(at).ok()?;
    here.get_mut(at..at.checked_add(bytes.len())?)?
        .copy_from_slice(bytes);
    Some(here)
}

/// Every offset and count of the edges, with areas of several lengths.
fn any_writers() -> impl Iterator<Item = (Writer, usize)> {
    let lengths = [0, 27, 28, 44, 65_519, 65_520, 65_536, 65_600];
    let pairs = EDGES.iter().flat_map(|o| EDGES.map(|c| (*o, c)));
    let writers = pairs.map(|(offset, count)| numbers(7, offset, count, 0));
    writers.flat_map(move |writer| lengths.map(|length| (writer, length)))
}

/// The place behind the last record, in 128 bits.
fn records_end(writer: Writer) -> u128 {
    u128::from(writer.offset) + 12 * u128::from(writer.count)
}

/// An event with nothing wrong, by the sums of the request.
#[test]
fn events_of_any_writer() {
    let mut counts = [0; 3];
    for (before, length) in any_writers() {
        let (mut here, mut writer) = (area(length), before);
        let given = writer::event(&mut here, &mut writer, &FENCE);
        let end = records_end(before);
        let (at, expected) = match laid(length, end, &FENCE) {
            _ if end + 12 + 16 > 65_536 => (0, (Err(2), before, area(length))),
            None => (1, (Err(15), before, area(length))),
            Some(here) => {
                let after = numbers(7, before.offset, before.count + 1, 0);
                (2, (Ok(()), after, here))
            }
        };
        assert!((given, writer, here) == expected, "{before:?} {length}");
        counts[at] += 1;
    }
    println!("events refused by 2 and by 15, and taken: {counts:?}");
    assert!(counts.iter().all(|&count| count > 50));
}

/// A closing, by the sums of the request.
#[test]
fn closings_of_any_writer() {
    let mut counts = [0; 2];
    for (writer, length) in any_writers() {
        let mut here = area(length);
        let closed = writer::close(&mut here, &writer);
        let trailer = raw_trailer(MARK, writer.offset, writer.count, 7, 0);
        let end = records_end(writer);
        let (at, expected) = match laid(length, end, &trailer) {
            None => (0, (Err(15), area(length))),
            Some(here) => (1, (Ok((end + 16) as usize), here)),
        };
        assert!((closed, here) == expected, "{writer:?} {length}");
        counts[at] += 1;
        for open in [1, 8, 9, u16::MAX] {
            let mut here = area(length);
            let closed = writer::close(&mut here, &Writer { open, ..writer });
            assert!((closed, here) == (Err(13), area(length)), "{writer:?}");
        }
    }
    println!("closings refused by 15, and taken: {counts:?}");
    assert!(counts.iter().all(|&count| count > 50));
}
