//! `fuzz`: a judge on arbitrary strings of bytes. What it answers is checked without a model.

use crate::differential::{
    add_each, answer_text, bytes, counted, first_different, named_answers, random_for, saved,
    spread, target_file, threads, Answers, Given, Judge, Returned,
};
use crate::judge::Answer;
use crate::{no_bytes, shared};
use reference::event::{Event, Range, LINE, MAX_DEPTH};
use reference::random::Random;
use reference::trace::{self, raw_record, raw_trailer, MARK, MAX_TRACE, RECORD, TRAILER};
use std::fmt::Write;
use std::ops::AddAssign;
use std::path::Path;
use std::process::exit;
use std::sync::atomic::{AtomicU64, Ordering::Relaxed};
use std::sync::mpsc::{channel, Receiver, RecvTimeoutError};
use std::time::{Duration, Instant};

/// How many strings are judged if the command line does not say.
pub const STRINGS: u64 = 1_000_000;

/// How long one call may take.
pub const LIMIT: Duration = Duration::from_secs(10);

/// The files in `target/` that take a string.
pub const BAD_FILE: &str = "harness-bad.trace";
pub const HANG_FILE: &str = "harness-hang.trace";

type Drawn = fn(&mut Random) -> Vec<u8>;

/// The classes of strings; a string's number chooses its class.
const CLASSES: [(&str, Drawn); 4] = [
    ("(a) any bytes", any_bytes),
    ("(b) any bytes, a good trailer", any_records),
    ("(c) plausible records, a good trailer", plausible),
    ("(d) a trailer with fields at edges", edge_trailer),
];

fn class_of(number: u64) -> usize {
    ((number - 1) % CLASSES.len() as u64) as usize
}

/// String `number` of a seed.
pub fn string(seed: u64, number: u64) -> Vec<u8> {
    drawn(&mut random_for(seed, number), number)
}

fn drawn(random: &mut Random, number: u64) -> Vec<u8> {
    CLASSES[class_of(number)].1(random)
}

/// String `number` of a seed, with its findings area.
fn given(seed: u64, number: u64) -> Given {
    let mut random = random_for(seed, number);
    let string = drawn(&mut random, number);
    let area_len = area_length(&mut random, &string);
    Given::new(&mut random, string, area_len)
}

fn any_bytes(random: &mut Random) -> Vec<u8> {
    let length = match random.below(500) {
        0 => random.below(MAX_TRACE + 65),
        1 => MAX_TRACE - 64 + random.below(129),
        _ => random.below(101),
    };
    bytes(random, length)
}

fn any_records(random: &mut Random) -> Vec<u8> {
    let front = any_bytes(random);
    let count = random.below(front.len() / RECORD + 1);
    let lines = good_lines(random);
    with_trailer(front, count, lines)
}

fn good_lines(random: &mut Random) -> u16 {
    match random.below(4) {
        0 => random.pick(&[1, 2, 63, 64]),
        _ => 1 + random.below(64) as u16,
    }
}

/// The string with a good trailer behind it, for its last `count` records.
fn with_trailer(mut front: Vec<u8>, count: usize, lines: u16) -> Vec<u8> {
    let offset = front.len() - RECORD * count;
    front.extend(raw_trailer(MARK, offset as u32, count as u32, lines, 0));
    front
}

fn plausible(random: &mut Random) -> Vec<u8> {
    let lines = good_lines(random);
    let mut string = match random.below(4) {
        0 => {
            let free = random.below(40);
            bytes(random, free)
        }
        _ => Vec::new(),
    };
    let records = plausible_records(random, lines);
    string.extend(records.iter().flatten());
    with_trailer(string, records.len(), lines)
}

/// Records with fields at edges, in some strings none, in others many; in some strings ordered whose ranges share a
/// byte; the ends of the open transactions follow in most.
fn plausible_records(random: &mut Random, lines: u16) -> Vec<[u8; RECORD]> {
    let count = match random.below(300) {
        0 => random.below(MAX_TRACE / RECORD),
        1..=9 => random.below(400),
        _ => random.below(40),
    };
    let edges = random.pick(&[0, 0, 1, 10, 100]);
    let sharing = match random.below(8) {
        0 => random.pick(&[1, 4]),
        _ => 0,
    };
    let nested = random.chance(1, 8);
    let mut records = Vec::with_capacity(count + MAX_DEPTH);
    let mut depth = 0;
    for _ in 0..count {
        let kind = plausible_kind(random, depth, nested);
        match kind {
            Event::BEGIN => depth += 1,
            Event::END => depth -= 1,
            _ => {}
        }
        let mut record = plausible_record(random, kind, lines, edges);
        set_pair(random, &mut record, lines, sharing);
        set_edges(random, &mut record, edges);
        records.push(record);
    }
    if random.chance(9, 10) {
        let end = raw_record(Event::END, 0, Range::new(0, 0), Range::new(0, 0), 7);
        records.extend(vec![end; depth]);
    }
    records
}

/// A kind that the open transactions allow. If they are to nest, none ends before the deepest, and
/// few begin beyond it.
fn plausible_kind(random: &mut Random, depth: usize, nested: bool) -> u8 {
    loop {
        let kind = 1 + random.below(8) as u8;
        let passed = match kind {
            Event::LOG => depth > 0,
            Event::END => depth >= if nested { MAX_DEPTH } else { 1 },
            Event::BEGIN => depth < MAX_DEPTH || nested && random.chance(1, 20),
            _ => true,
        };
        if passed {
            return kind;
        }
    }
}

/// A record of this kind.
fn plausible_record(random: &mut Random, kind: u8, lines: u16, edges: usize) -> [u8; RECORD] {
    let nothing = Range::new(0, 0);
    let mut range = || small_range(random, lines, edges);
    let (a, b) = match kind {
        Event::FENCE | Event::BEGIN | Event::END => (nothing, nothing),
        Event::ORDERED => (range(), range()),
        _ => (range(), nothing),
    };
    raw_record(kind, 0, a, b, random.bits() as u16)
}

/// Of 16 ordered so many get ranges that share a byte, some of them past the window. The others share none.
fn set_pair(random: &mut Random, record: &mut [u8; RECORD], lines: u16, sharing: usize) {
    let window = usize::from(lines) * LINE;
    if random.chance(sharing, 16) {
        let drawn = [shared::sharing, shared::sharing, shared::past];
        let drawn = random.pick(&drawn);
        shared::put(random, record, window, drawn);
    } else if shared::refused_by_18(record, window) {
        shared::put(random, record, window, shared::beside);
    }
}

/// Of 1,000 values of a record so many are set to edges, its kind among them.
fn set_edges(random: &mut Random, record: &mut [u8; RECORD], edges: usize) {
    if random.chance(edges, 1_000) {
        record[0] = random.pick(&[0, 4, 5, 6, 9, 128, 255]);
    }
    if random.chance(edges, 1_000) {
        record[1] = random.pick(&[1, 128, 255]);
    }
    for field in record[2..].chunks_exact_mut(2) {
        if random.chance(edges, 1_000) {
            let value = edge_field(random);
            field.copy_from_slice(&value.to_le_bytes());
        }
    }
}

/// A range inside the window. One in eight has no byte; of 200 of these so many are beyond it.
fn small_range(random: &mut Random, lines: u16, edges: usize) -> Range {
    let window = usize::from(lines) * LINE;
    if random.chance(1, 8) {
        return match random.chance(edges, 200) {
            true => no_bytes::beyond(random, window),
            false => no_bytes::inside(random, window),
        };
    }
    let length = 1 + random.below(LINE / 2) as u16;
    let address = random.below(window - usize::from(length) + 1);
    Range::new(address as u16, length)
}

fn edge_field(random: &mut Random) -> u16 {
    let edges = [0, 1, 63, 64, 65, 255, 256, 4_032, 4_095, 4_096, 65_535];
    random.pick(&edges)
}

/// Any bytes or plausible records before a trailer with one to four fields at edges.
fn edge_trailer(random: &mut Random) -> Vec<u8> {
    let mut string = match random.below(2) {
        0 => any_records(random),
        _ => plausible(random),
    };
    let trailer = string.len() - TRAILER;
    for _ in 0..1 + random.below(4) {
        match random.below(6) {
            0 => string[trailer + random.below(4)] = random.bits() as u8,
            1 | 2 => {
                let at = trailer + random.pick(&[4, 8]);
                let value = edge_number(random, trailer);
                string[at..at + 4].copy_from_slice(&value.to_le_bytes());
            }
            3 | 4 => {
                let value = random.pick(&[0, 1, 63, 64, 65, 255, 256, 257, 65_535]);
                string[trailer + 12..][..2].copy_from_slice(&u16::to_le_bytes(value));
            }
            _ => {
                let value = random.pick(&[0, 0, 1, 256, 65_535]);
                string[trailer + 14..].copy_from_slice(&u16::to_le_bytes(value));
            }
        }
    }
    string
}

/// A value for offset or count, of which some fit so many bytes.
fn edge_number(random: &mut Random, length: usize) -> u32 {
    let (length, record) = (length as u32, RECORD as u32);
    let wide = [0, 1, 12, 0x4000_0000, 0x1555_5555, 0x8000_0000, u32::MAX];
    match random.below(3) {
        0 => random.pick(&wide),
        1 => random.pick(&[length, length / record, length % record, length + 1]),
        _ => random.below(length as usize + 1) as u32,
    }
}

/// The record count of the trailer, if there is one.
fn trailer_count(string: &[u8]) -> Option<u32> {
    let field = string.len().checked_sub(TRAILER)? + 8;
    let field = &string[field..field + 4];
    Some(u32::from_le_bytes(field.try_into().expect("four bytes")))
}

/// The length of a findings area: exact if the trailer is good, or any.
fn area_length(random: &mut Random, string: &[u8]) -> usize {
    let count = trailer_count(string).unwrap_or(0) as usize;
    let exact = RECORD * count.min(MAX_TRACE / RECORD);
    match random.below(8) {
        0 => random.below(exact + 1),
        1 => random.below(200),
        2 | 3 => exact + random.below(40),
        _ => exact,
    }
}

/// What a call did that no call may do.
fn violation(given: &Given, returned: &Returned) -> Option<String> {
    let Some(answer) = returned.answer else {
        return Some("the judge panicked".to_string());
    };
    if let Some(at) = first_different(&given.trace, &returned.trace) {
        return Some(format!("the string's byte {at} changed"));
    }
    match answer {
        Answer::Refused { number, record } => bad_refusal(given, number, record)
            .or_else(|| changed(given, returned, given.area.start..given.area.start)),
        Answer::Accepted { events, .. } => {
            let written = RECORD * events as usize;
            if trailer_count(&given.trace) != Some(events) || written > given.area.len() {
                return Some(format!("{events} events accepted"));
            }
            let written = given.area.start..given.area.start + written;
            bad_findings(&returned.buffer[written.clone()], answer)
                .or_else(|| changed(given, returned, written))
                .or_else(|| passed_shared(&given.trace, events))
        }
    }
}

fn bad_refusal(given: &Given, number: u32, record: u32) -> Option<String> {
    let good = match number {
        1..=5 | 13 | 14 => record == 0,
        // No trace is long enough for number 10, and 8 is not given any more.
        6 | 7 | 9 | 11 | 12 => record >= 1 && Some(record) <= trailer_count(&given.trace),
        18 => shared_at(&given.trace, record),
        _ => false,
    };
    if !good {
        return Some("no such refusal".to_string());
    }
    match number {
        13 => passed_shared(&given.trace, u32::MAX),
        _ => passed_shared(&given.trace, record.saturating_sub(1)),
    }
}

/// Whether the record with this number is one that 18 refuses.
fn shared_at(string: &[u8], record: u32) -> bool {
    let Ok(body) = trace::open(string) else {
        return false;
    };
    let at = (record as usize).checked_sub(1);
    let record = at.and_then(|at| body.record_bytes().nth(at));
    record.is_some_and(|record| shared::refused_by_18(record, no_bytes::window(&body)))
}

/// An ordered whose ranges share a byte among so many first records, which were not refused.
fn passed_shared(string: &[u8], records: u32) -> Option<String> {
    let body = trace::open(string).ok()?;
    let mut passed = body.record_bytes().take(records as usize);
    let at = passed.position(shared::shares)?;
    Some(format!("record {} was not refused by 18", at + 1))
}

/// Findings with bytes that no finding has, or with another number of them than answered.
fn bad_findings(area: &[u8], answer: Answer) -> Option<String> {
    let mut found = 0;
    for (at, finding) in area.chunks_exact(RECORD).enumerate() {
        if finding[0] > 8 || finding[1] != 0 {
            let at = at + 1;
            return Some(format!(
                "finding {at} has kind {} and zero byte {}",
                finding[0], finding[1]
            ));
        }
        found += u32::from(finding[0] != 0);
    }
    match answer {
        Answer::Accepted {
            events,
            fences,
            findings,
        } if findings != found || fences > events => Some(format!("{found} findings written")),
        _ => None,
    }
}

/// The first byte that changed outside the part that may be written.
fn changed(given: &Given, returned: &Returned, written: std::ops::Range<usize>) -> Option<String> {
    let mut expected = returned.buffer.clone();
    expected[..written.start].copy_from_slice(&given.buffer[..written.start]);
    expected[written.end..].copy_from_slice(&given.buffer[written.end..]);
    let at = first_different(&expected, &returned.buffer)?;
    let (before, after) = (expected[at], returned.buffer[at]);
    let place = given.place(at);
    Some(format!(
        "{place} changed from {before:02x}h to {after:02x}h"
    ))
}

#[derive(Clone, Default)]
struct Counts {
    bytes: u64,
    answers: Answers,
    classes: [u64; CLASSES.len()],
    accepted: [u64; CLASSES.len()],
    /// Accepted with a range of no bytes.
    no_bytes: u64,
}

impl Counts {
    fn add(&mut self, number: u64, given: &Given, answer: Option<Answer>) {
        self.bytes += given.trace.len() as u64;
        self.classes[class_of(number)] += 1;
        match answer {
            Some(Answer::Refused { number, .. }) => self.answers[number as usize] += 1,
            Some(Answer::Accepted { .. }) => {
                self.answers[0] += 1;
                self.accepted[class_of(number)] += 1;
                self.no_bytes += u64::from(no_bytes::any_in_trace(&given.trace));
            }
            None => {}
        }
    }

    fn named(&self) -> Vec<(String, u64)> {
        let strings = self.classes.iter().sum();
        let mut named = vec![
            ("strings".to_string(), strings),
            ("bytes".to_string(), self.bytes),
        ];
        named.extend(named_answers(&self.answers));
        let no_bytes = "accepted strings with a range of no bytes";
        named.push((no_bytes.to_string(), self.no_bytes));
        named
    }

    fn class_lines(&self) -> String {
        let mut lines = String::new();
        for (class, (name, _)) in CLASSES.iter().enumerate() {
            let (strings, accepted) = (self.classes[class], self.accepted[class]);
            writeln!(lines, "{name}: {strings} strings, {accepted} accepted")
                .expect("a string takes text");
        }
        lines
    }
}

impl AddAssign for Counts {
    fn add_assign(&mut self, other: Counts) {
        self.bytes += other.bytes;
        add_each(&mut self.answers, &other.answers);
        add_each(&mut self.classes, &other.classes);
        add_each(&mut self.accepted, &other.accepted);
        self.no_bytes += other.no_bytes;
    }
}

/// A string with a violation.
struct Bad {
    number: u64,
    given: Given,
    answer: Option<Answer>,
    what: String,
}

impl Bad {
    /// What is wrong, in lines. The string goes to the file.
    fn report(&self, judge: &str, seed: u64, file: &Path) -> String {
        let number = self.number;
        format!(
            "fuzz: judge {judge} on string {number} of seed {seed}: {}\nanswer: {}\n{}{}",
            self.what,
            answer_text(self.answer),
            again(&self.given, seed, number),
            saved(file, &self.given.trace)
        )
    }
}

fn again(given: &Given, seed: u64, number: u64) -> String {
    format!(
        "string of {} bytes, findings area of {} bytes\n\
         it is the last string of: harness fuzz {number} {seed}\n",
        given.trace.len(),
        given.area.len()
    )
}

/// Judges the strings of a seed. While a thread waits for an answer, its place in `judging` has the
/// string's number, else 0.
fn judge_all(
    judge: &Judge,
    strings: u64,
    seed: u64,
    judging: &[AtomicU64],
) -> Result<Counts, Box<Bad>> {
    spread("strings", strings, |thread, number, counts: &mut Counts| {
        let given = given(seed, number);
        judging[thread].store(number, Relaxed);
        let returned = given.judged(judge);
        judging[thread].store(0, Relaxed);
        let answer = returned.answer;
        match violation(&given, &returned) {
            Some(what) => Err(Box::new(Bad {
                number,
                given,
                answer,
                what,
            })),
            None => {
                counts.add(number, &given, answer);
                Ok(())
            }
        }
    })
}

/// Waits until the sender is gone, or until a string has waited for its answer longer than the
/// limit; then its number is the answer.
fn watch(judging: &[AtomicU64], limit: Duration, ended: &Receiver<()>) -> Option<u64> {
    let mut seen = vec![(0, Instant::now()); judging.len()];
    while ended.recv_timeout(limit / 50) == Err(RecvTimeoutError::Timeout) {
        for (number, (last, since)) in judging.iter().zip(&mut seen) {
            let number = number.load(Relaxed);
            if number != *last {
                (*last, *since) = (number, Instant::now());
            } else if number != 0 && since.elapsed() > limit {
                return Some(number);
            }
        }
    }
    None
}

/// Does work while a watcher waits: a call that does not return ends the program, with a text for
/// its number. While a thread waits for an answer, its place in the numbers has the string's, else 0.
pub fn watched<T>(
    work: impl FnOnce(&[AtomicU64]) -> T,
    hang_text: impl Fn(u64) -> String + Sync,
) -> T {
    let judging: Vec<AtomicU64> = (0..threads()).map(|_| AtomicU64::new(0)).collect();
    let (ending, ended) = channel();
    std::thread::scope(|scope| {
        scope.spawn(|| {
            let ended = ended;
            if let Some(number) = watch(&judging, LIMIT, &ended) {
                eprint!("{}", hang_text(number));
                exit(1);
            }
        });
        let result = work(&judging);
        drop(ending);
        result
    })
}

/// The lines for a string without an answer, which goes to a file.
fn hang_text(judge: &str, seed: u64, number: u64) -> String {
    let given = given(seed, number);
    format!(
        "fuzz: judge {judge} on string {number} of seed {seed}: no answer after {} s\n{}{}",
        LIMIT.as_secs(),
        again(&given, seed, number),
        saved(&target_file(HANG_FILE), &given.trace)
    )
}

/// The lines for standard output, or, for a violation, those for standard error. A call that does
/// not return ends the program.
pub fn command(judge: &Judge, strings: u64, seed: u64) -> Result<String, String> {
    let result = watched(
        |judging| judge_all(judge, strings, seed, judging),
        |number| hang_text(judge.name, seed, number),
    );
    match result {
        Ok(counts) => {
            let text = counted(&counts.named(), strings >= STRINGS)?;
            let (name, classes) = (judge.name, counts.class_lines());
            Ok(format!("{text}{classes}judge {name}\nseed {seed}\nbad 0\n"))
        }
        Err(bad) => Err(bad.report(judge.name, seed, &target_file(BAD_FILE))),
    }
}

#[cfg(test)]
mod tests {
    use super::*;
    use crate::differential::tests::{RIGHT, WRONG};

    fn judging() -> Vec<AtomicU64> {
        (0..threads()).map(|_| AtomicU64::new(0)).collect()
    }

    #[test]
    fn the_proved_judge_is_right() {
        let counts = judge_all(&RIGHT, 10_000, 3, &judging()).ok().unwrap();
        let named = counts.named();
        assert_eq!(named[0], ("strings".to_string(), 10_000));
        assert!(counted(&named, true).is_ok(), "{named:?}");
    }

    #[test]
    fn every_wrong_judge_is_found() {
        for judge in &WRONG {
            let found = judge_all(judge, 5_000, 1, &judging()).err();
            assert!(found.is_some(), "not found: {}", judge.name);
        }
    }

    #[test]
    fn a_violation_is_reported_and_its_string_saved() {
        let bad = judge_all(&WRONG[3], 5_000, 1, &judging()).err().unwrap();
        let file = target_file("harness-test-bad.trace");
        let report = bad.report("wrong", 1, &file);
        let saved = std::fs::read(&file).unwrap();
        std::fs::remove_file(&file).unwrap();
        assert_eq!(saved, given(1, bad.number).trace);
        let last = format!(": area byte {} changed from ", bad.given.area.len() - 1);
        let again = format!("harness fuzz {} 1\n", bad.number);
        assert!(
            report.contains(&last) && report.contains(&again),
            "{report}"
        );
    }

    #[test]
    fn changes_outside_the_area_are_violations() {
        let given = given(1, 1);
        let places = [
            0,
            given.area.start - 1,
            given.area.end,
            given.buffer.len() - 1,
        ];
        for place in places {
            let mut returned = given.judged(&RIGHT);
            assert_eq!(violation(&given, &returned), None);
            returned.buffer[place] ^= 4;
            assert!(violation(&given, &returned).is_some());
        }
        let mut returned = given.judged(&RIGHT);
        returned.trace[0] ^= 4;
        assert!(violation(&given, &returned).is_some());
    }

    #[test]
    fn refusals_are_well_formed() {
        let given = Given::new(&mut Random::new(1), with_trailer(vec![9; 24], 2, 1), 24);
        let bad = |number, record| bad_refusal(&given, number, record).is_some();
        for number in 0..20 {
            let at_trailer = matches!(number, 1..=5 | 13 | 14);
            let at_record = matches!(number, 6 | 7 | 9 | 11 | 12);
            assert_eq!(bad(number, 0), !at_trailer);
            assert_eq!(bad(number, 1), !at_record);
            assert_eq!(bad(number, 2), !at_record);
            assert!(bad(number, 3));
        }
    }

    #[test]
    fn an_ordered_whose_ranges_share_a_byte_is_refused_by_18_and_not_passed() {
        let given = |a, b| {
            let (fence, nothing) = (Event::FENCE, Range::new(0, 0));
            let mut string = raw_record(fence, 0, nothing, nothing, 0).to_vec();
            string.extend(raw_record(Event::ORDERED, 0, a, b, 0));
            Given::new(&mut Random::new(1), with_trailer(string, 2, 1), 24)
        };
        let shared = given(Range::new(0, 8), Range::new(7, 8));
        assert_eq!(bad_refusal(&shared, 18, 2), None);
        assert_eq!(bad_refusal(&shared, 9, 2), None);
        for (number, record) in [(18, 0), (18, 1), (18, 3), (13, 0)] {
            assert!(bad_refusal(&shared, number, record).is_some());
        }
        assert!(passed_shared(&shared.trace, 2).is_some());
        assert_eq!(passed_shared(&shared.trace, 1), None);
        for (a, b) in [
            (Range::new(0, 8), Range::new(8, 8)),
            (Range::new(0, 8), Range::new(4, 0)),
        ] {
            let apart = given(a, b);
            assert!(bad_refusal(&apart, 18, 2).is_some());
            assert_eq!(passed_shared(&apart.trace, 2), None);
        }
        let past = given(Range::new(0, 8), Range::new(7, 58));
        assert!(bad_refusal(&past, 18, 2).is_some());
    }

    #[test]
    fn a_call_without_an_answer_is_seen() {
        let limit = Duration::from_millis(50);
        let judging = [AtomicU64::new(0), AtomicU64::new(17)];
        let (ending, ended) = channel();
        assert_eq!(watch(&judging, limit, &ended), Some(17));
        drop(ending);
        assert_eq!(watch(&judging, limit, &ended), None);
    }
}
