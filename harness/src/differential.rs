//! `differential`: judges compared with the unrelated checker on random traces.

use crate::judge::Answer;
use crate::progress::Progress;
use crate::{no_bytes, shared};
use reference::event::LINE;
use reference::finding::{Finding, Kind};
use reference::outcome::{findings_bytes, Outcome};
use reference::random::{self, Mix, Random, Shape};
use reference::trace::{self, Body, MAX_TRACE, RECORD, TRAILER};
use std::fmt::Write;
use std::hint::black_box;
use std::ops::{AddAssign, Range};
use std::panic::{catch_unwind, AssertUnwindSafe};
use std::path::{Path, PathBuf};
use std::sync::atomic::{AtomicU64, Ordering::Relaxed};

/// How many traces are compared if the command line does not say.
pub const TRACES: u64 = 200_000;

/// The most records in a trace.
pub const MAX_RECORDS: usize = (MAX_TRACE - TRAILER) / RECORD;

/// The file in `target/` that takes a trace with a difference.
pub const FILE: &str = "harness-difference.trace";

/// A judge, and the name that it is reported with.
#[derive(Clone, Copy)]
pub struct Judge {
    pub name: &'static str,
    pub call: fn(&[u8], &mut [u8]) -> Answer,
}

/// A trace, and a buffer with its findings area between guard bytes.
pub struct Given {
    pub trace: Vec<u8>,
    pub buffer: Vec<u8>,
    pub area: Range<usize>,
}

/// What a call left. Without an answer it panicked.
#[derive(PartialEq, Eq)]
pub struct Returned {
    pub answer: Option<Answer>,
    pub trace: Vec<u8>,
    pub buffer: Vec<u8>,
}

impl Given {
    /// Every byte of the buffer is random; the guards have 16 to 31 bytes.
    pub fn new(random: &mut Random, trace: Vec<u8>, area_len: usize) -> Given {
        let start = 16 + random.below(16);
        let area = start..start + area_len;
        let behind = 16 + random.below(16);
        let buffer = bytes(random, area.end + behind);
        Given {
            trace,
            buffer,
            area,
        }
    }

    /// Calls a judge on copies.
    pub fn judged(&self, judge: &Judge) -> Returned {
        let (trace, mut buffer) = (self.trace.clone(), self.buffer.clone());
        let area = &mut buffer[self.area.clone()];
        let answer = catch_unwind(AssertUnwindSafe(|| (judge.call)(black_box(&trace), area))).ok();
        // The compiler may not take the trace for unchanged.
        let trace = black_box(trace);
        Returned {
            answer,
            trace,
            buffer,
        }
    }

    /// What a judge has to leave that agrees with the outcome.
    fn expected(&self, outcome: &Outcome) -> Returned {
        let mut buffer = self.buffer.clone();
        let findings = findings_bytes(outcome);
        buffer[self.area.start..][..findings.len()].copy_from_slice(&findings);
        Returned {
            answer: Some(answer_of(outcome)),
            trace: self.trace.clone(),
            buffer,
        }
    }

    /// The name of a byte of the buffer.
    pub fn place(&self, at: usize) -> String {
        if at < self.area.start {
            format!("byte {} before the area", self.area.start - at)
        } else if at < self.area.end {
            format!("area byte {}", at - self.area.start)
        } else {
            format!("byte {} behind the area", at - self.area.end)
        }
    }
}

/// The outcome as a judge answers it.
pub fn answer_of(outcome: &Outcome) -> Answer {
    match outcome {
        Outcome::Refused(refusal) => Answer::Refused {
            number: u32::from(refusal.number),
            record: refusal.record as u32,
        },
        Outcome::Accepted(report) => Answer::Accepted {
            events: report.totals.events as u32,
            fences: report.totals.fences as u32,
            findings: report.totals.found as u32,
        },
    }
}

/// The generator for one number of a seed.
pub fn random_for(seed: u64, number: u64) -> Random {
    Random::new(Random::new(seed ^ Random::new(number).bits()).bits())
}

/// So many random bytes.
pub fn bytes(random: &mut Random, count: usize) -> Vec<u8> {
    let mut bytes = vec![0; count];
    for part in bytes.chunks_mut(8) {
        part.copy_from_slice(&random.bits().to_le_bytes()[..part.len()]);
    }
    bytes
}

/// Trace `number` of a seed, with its findings area.
pub fn given(seed: u64, number: u64) -> Given {
    let mut random = random_for(seed, number);
    let trace = drawn(&mut random);
    let area_len = area_length(&mut random, &trace);
    Given::new(&mut random, trace, area_len)
}

/// A trace, valid or damaged: mostly short, some long or near the longest, some of any bytes. One in eight gets ranges of
/// no bytes, and one in eight those of `shared`.
pub fn drawn(random: &mut Random) -> Vec<u8> {
    let shape = shape(random);
    let (mut trace, most_damages) = match random.below(500) {
        0..=3 => (long(random), 1),
        4 => (near_longest(random, &shape), 1),
        5 => {
            let count = random.below(2 * TRAILER);
            (bytes(random, count), 0)
        }
        6..=199 => (random::valid(random, &shape), 0),
        200..=324 => (random::damaged(random, &shape), 0),
        325..=449 => (random::valid(random, &shape), 3),
        _ => (random::damaged(random, &shape), 2),
    };
    for _ in 0..random.below(most_damages + 1) {
        damage(random, &mut trace);
    }
    if random.chance(1, 8) {
        no_bytes::put_some(random, &mut trace);
    }
    if random.chance(1, 8) {
        shared::put_some(random, &mut trace);
    }
    trace
}

/// One in three has stores of several words and orders between their parts.
fn shape(random: &mut Random) -> Shape {
    match random.below(3) {
        0 => random::small_shape(random),
        1 => random::torn_shape(random),
        _ => random::any_shape(random),
    }
}

/// A trace of hundreds of records, up to the most.
fn long(random: &mut Random) -> Vec<u8> {
    let any = random::any_shape(random);
    let events = 100 + random.below(MAX_RECORDS - 100);
    let shape = match random.below(4) {
        0 => Shape {
            events: MAX_RECORDS,
            mix: random.pick(&[Mix::PLAIN, Mix::ORDERED]),
            longest: 16,
            ..any
        },
        1 => Shape {
            events,
            mix: Mix {
                ordered: 0,
                ..any.mix
            },
            ..any
        },
        _ => Shape {
            events,
            longest: random.pick(&[8, 64, 130]),
            ..any
        },
    };
    random::valid(random, &shape)
}

/// A trace whose free bytes bring it to the longest allowed, or one byte beside it.
fn near_longest(random: &mut Random, shape: &Shape) -> Vec<u8> {
    let trace = random::valid(random, shape);
    let length = MAX_TRACE - 1 + random.below(3);
    let mut longer = bytes(random, length - trace.len());
    let added = longer.len() as u32;
    longer.extend(trace);
    add_to_trailer(&mut longer, 4, added);
    longer
}

/// Damage that `random::damaged` does not do.
fn damage(random: &mut Random, trace: &mut Vec<u8>) {
    match random.below(7) {
        0 => set_bytes(random, trace),
        1 => set_trailer_byte(random, trace),
        2 => shift_trailer(random, trace),
        3 => set_field(random, trace),
        4 => drop_records(random, trace),
        _ => set_range(random, trace),
    }
}

/// Sets some bytes to any value.
fn set_bytes(random: &mut Random, trace: &mut [u8]) {
    for _ in 0..1 + random.below(4) {
        if !trace.is_empty() {
            let at = random.below(trace.len());
            trace[at] = random.bits() as u8;
        }
    }
}

fn set_trailer_byte(random: &mut Random, trace: &mut [u8]) {
    if trace.len() >= TRAILER {
        let at = trace.len() - 1 - random.below(TRAILER);
        trace[at] = random.bits() as u8;
    }
}

/// Moves offset and count to values beside theirs, or to some that have the same sum in 32 bits.
fn shift_trailer(random: &mut Random, trace: &mut [u8]) {
    let records = random.below(4) as u32;
    let (offset, count) = match random.below(5) {
        0 => (random.pick(&[1, u32::MAX]), 0),
        1 => (0, random.pick(&[1, u32::MAX])),
        2 => (12 * records, records.wrapping_neg()),
        3 => ((12 * records).wrapping_neg(), records),
        _ => (0, 0x4000_0000 * records),
    };
    add_to_trailer(trace, 4, offset);
    add_to_trailer(trace, 8, count);
}

/// Adds to a field of 32 bits, which wraps around.
fn add_to_trailer(trace: &mut [u8], field: usize, value: u32) {
    if let Some(trailer) = trace.len().checked_sub(TRAILER) {
        let place = &mut trace[trailer + field..][..4];
        let sum = u32::from_le_bytes([place[0], place[1], place[2], place[3]]).wrapping_add(value);
        place.copy_from_slice(&sum.to_le_bytes());
    }
}

/// The start of a record, and the bytes of the window; none without a record.
fn some_record(random: &mut Random, trace: &[u8]) -> Option<(usize, usize)> {
    let body = trace::open(trace).ok().filter(|body| body.count() > 0)?;
    let start = body.free.len() + RECORD * random.below(body.count());
    Some((start, 64 * usize::from(body.lines)))
}

/// Sets a field of a record to any value.
fn set_field(random: &mut Random, trace: &mut [u8]) {
    if let Some((start, _)) = some_record(random, trace) {
        let at = start + 2 * random.below(RECORD / 2);
        trace[at..at + 2].copy_from_slice(&(random.bits() as u16).to_le_bytes());
    }
}

/// Sets a range of a record to one that ends where the window ends, one byte further, or past
/// 65,535. One in eight has no byte.
fn set_range(random: &mut Random, trace: &mut [u8]) {
    if let Some((start, window)) = some_record(random, trace) {
        let length = match random.below(8) {
            0 => 0,
            _ => 1 + random.below(window),
        };
        let address = match random.below(3) {
            0 => window - length,
            1 => window - length + 1,
            _ => 65_536 - random.below(length + 1).max(1),
        };
        let at = start + random.pick(&[2, 2, 6]);
        trace[at..at + 2].copy_from_slice(&(address as u16).to_le_bytes());
        trace[at + 2..at + 4].copy_from_slice(&(length as u16).to_le_bytes());
    }
}

/// Takes whole records away; the trailer still fits.
fn drop_records(random: &mut Random, trace: &mut Vec<u8>) {
    let Ok(body) = trace::open(trace) else {
        return;
    };
    let (start, count) = (body.free.len(), body.count());
    let first = random.below(count + 1);
    let dropped = random.below((count - first).min(3) + 1);
    let from = start + RECORD * first;
    trace.drain(from..from + RECORD * dropped);
    add_to_trailer(trace, 8, (dropped as u32).wrapping_neg());
}

/// The length of a findings area: exact in half of the cases, longer, or too short.
fn area_length(random: &mut Random, trace: &[u8]) -> usize {
    let count = match trace::open(trace) {
        Ok(body) => body.count(),
        Err(_) => random.below(40),
    };
    let exact = RECORD * count;
    match random.below(20) {
        0 => 0,
        1 => exact.saturating_sub(1),
        2 => random.below(exact + 1),
        3..=9 => exact + 1 + random.below(40),
        _ => exact,
    }
}

/// The names of the area cases, in the order of their counts.
const AREAS: [&str; 5] = [
    "exact",
    "longer",
    "too short",
    "too short and 0 long",
    "for no good trailer",
];

fn area_case(body: Option<&Body>, area_len: usize) -> usize {
    match body.map(|body| RECORD * body.count()) {
        Some(exact) if area_len == exact => 0,
        Some(exact) if area_len > exact => 1,
        Some(_) if area_len > 0 => 2,
        Some(_) => 3,
        None => 4,
    }
}

/// What the traces covered, by the answers of the unrelated checker.
#[derive(Clone, Default)]
struct Counts {
    traces: u64,
    records: u64,
    answers: Answers,
    /// By the finding's number.
    findings: [u64; 9],
    /// Traces with a pair out of order that one store set on one line, and those pairs.
    torn: [u64; 2],
    no_bytes: no_bytes::Counts,
    shared: shared::Counts,
    areas: [u64; 5],
}

impl Counts {
    fn add(&mut self, given: &Given, outcome: &Outcome) {
        self.traces += 1;
        self.areas[area_case(trace::open(&given.trace).ok().as_ref(), given.area.len())] += 1;
        let number = outcome.refusal().map_or(0, |refusal| refusal.number);
        self.answers[usize::from(number)] += 1;
        let mut torn = 0;
        for finding in outcome.report().iter().flat_map(|report| &report.findings) {
            self.records += 1;
            self.findings[usize::from(finding.kind.number())] += 1;
            torn += u64::from(is_torn(finding));
        }
        add_each(&mut self.torn, &[torn.min(1), torn]);
        self.no_bytes.add(&given.trace, outcome);
        self.shared.add_trace(&given.trace, outcome);
    }

    fn named(&self) -> Vec<(String, u64)> {
        let mut named = vec![
            ("traces".to_string(), self.traces),
            (
                "records judged in accepted traces".to_string(),
                self.records,
            ),
        ];
        named.extend(named_answers(&self.answers));
        let kinds = Kind::ALL.iter().zip(self.findings);
        named.extend(kinds.map(|(kind, count)| (format!("finding {}", kind.name()), count)));
        let [traces, pairs] = self.torn;
        named.push(("traces with a torn store out of order".to_string(), traces));
        named.push(("pairs out of order of a torn store".to_string(), pairs));
        named.extend(self.no_bytes.named());
        named.extend(self.shared.named());
        let areas = AREAS.iter().zip(self.areas);
        named.extend(areas.map(|(name, count)| (format!("area {name}"), count)));
        named
    }
}

impl AddAssign for Counts {
    fn add_assign(&mut self, other: Counts) {
        self.traces += other.traces;
        self.records += other.records;
        add_each(&mut self.answers, &other.answers);
        add_each(&mut self.findings, &other.findings);
        add_each(&mut self.torn, &other.torn);
        self.no_bytes += other.no_bytes;
        self.shared += other.shared;
        add_each(&mut self.areas, &other.areas);
    }
}

/// An out-of-order whose two bytes one store set on one line: the moment is the kept byte's last store.
fn is_torn(finding: &Finding) -> bool {
    let one_line = usize::from(finding.lost) / LINE == usize::from(finding.kept) / LINE;
    finding.kind == Kind::OutOfOrder && finding.moment == finding.store && one_line
}

pub fn add_each(counts: &mut [u64], others: &[u64]) {
    for (count, other) in counts.iter_mut().zip(others) {
        *count += other;
    }
}

/// The name of answers refused by 10, which no trace is long enough for.
const IMPOSSIBLE: &str = "refused by 10";

/// The numbers that a trace can be refused by. 8 is not given any more.
const REFUSALS: [usize; 14] = [1, 2, 3, 4, 5, 6, 7, 9, 18, 10, 11, 12, 13, 14];

/// Counts of answers: accepted at 0, refused by a number at that number.
pub type Answers = [u64; 19];

pub fn named_answers(answers: &Answers) -> Vec<(String, u64)> {
    let mut named = vec![("accepted".to_string(), answers[0])];
    let refused = REFUSALS.map(|number| (format!("refused by {number}"), answers[number]));
    named.extend(refused);
    named
}

/// A line for each count; an error where one is 0 that `all` asks for.
pub fn counted(named: &[(String, u64)], all: bool) -> Result<String, String> {
    let mut text = String::new();
    for (name, count) in named {
        writeln!(text, "{name} {count}").expect("a string takes text");
    }
    let missing = named
        .iter()
        .find(|(name, count)| *count == 0 && name != IMPOSSIBLE);
    match missing {
        Some((name, _)) if all => Err(format!("{text}not covered: {name}\n")),
        _ => Ok(text),
    }
}

/// A trace that a judge treats differently.
struct Difference {
    judge: &'static str,
    number: u64,
    given: Given,
    expected: Returned,
    returned: Returned,
}

impl Difference {
    /// What differs, in lines. The trace goes to the file.
    fn report(&self, seed: u64, file: &Path) -> String {
        let (judge, number) = (self.judge, self.number);
        format!(
            "differential: judge {judge} differs from reference on trace {number} of seed {seed}\n\
             reference: {}\n{judge}: {}\n{}\
             trace of {} bytes, findings area of {} bytes\n\
             it is the last trace of: harness differential {number} {seed}\n{}",
            answer_text(self.expected.answer),
            answer_text(self.returned.answer),
            self.first_byte(),
            self.given.trace.len(),
            self.given.area.len(),
            saved(file, &self.given.trace)
        )
    }

    fn first_byte(&self) -> String {
        let (expected, returned) = (&self.expected, &self.returned);
        let (place, expected, returned) =
            if let Some(at) = first_different(&expected.buffer, &returned.buffer) {
                let place = self.given.place(at);
                (place, expected.buffer[at], returned.buffer[at])
            } else if let Some(at) = first_different(&expected.trace, &returned.trace) {
                let place = format!("trace byte {at}");
                (place, expected.trace[at], returned.trace[at])
            } else {
                return "no byte differs\n".to_string();
            };
        let judge = self.judge;
        format!("{place}: reference {expected:02x}h, {judge} {returned:02x}h\n")
    }
}

/// The place of the first byte that differs in two strings of one length.
pub fn first_different(one: &[u8], other: &[u8]) -> Option<usize> {
    // Quick where nothing differs.
    if one == other {
        return None;
    }
    one.iter().zip(other).position(|(one, other)| one != other)
}

pub fn answer_text(answer: Option<Answer>) -> String {
    answer.map_or("a panic".to_string(), |answer| format!("{answer:?}"))
}

/// The number of threads that work is spread over.
pub fn threads() -> usize {
    std::thread::available_parallelism().map_or(1, usize::from)
}

/// The numbers still to do.
struct Numbers {
    next: AtomicU64,
    last: AtomicU64,
}

impl Numbers {
    fn up_to(last: u64) -> Numbers {
        Numbers {
            next: AtomicU64::new(1),
            last: AtomicU64::new(last),
        }
    }

    fn take(&self) -> Option<u64> {
        let number = self.next.fetch_add(1, Relaxed);
        (number <= self.last.load(Relaxed)).then_some(number)
    }

    /// Leaves out the numbers above this one. Those below it are all taken already.
    fn stop_at(&self, number: u64) {
        self.last.fetch_min(number, Relaxed);
    }
}

/// Does the work of the numbers 1 to `total` on all cores; the work gets its thread's number as
/// well. The answer is the sum of the counts, or the failure of the lowest number that has one: the
/// same for any number of threads.
pub fn spread<C, F>(
    what: &'static str,
    total: u64,
    work: impl Fn(usize, u64, &mut C) -> Result<(), F> + Sync,
) -> Result<C, F>
where
    C: AddAssign + Default + Send,
    F: Send,
{
    let numbers = Numbers::up_to(total);
    let one_thread = &|thread: usize| {
        let mut progress = (thread == 0).then(|| Progress::new(what, total));
        let mut counts = C::default();
        while let Some(number) = numbers.take() {
            if let Err(failure) = work(thread, number, &mut counts) {
                numbers.stop_at(number);
                return Err((number, failure));
            }
            if let Some(progress) = &mut progress {
                progress.done(number);
            }
        }
        Ok(counts)
    };
    let results = std::thread::scope(|scope| {
        let start = |thread| scope.spawn(move || one_thread(thread));
        let started: Vec<_> = (0..threads()).map(start).collect();
        let ended = started.into_iter().map(|thread| thread.join());
        ended.collect::<Result<Vec<_>, _>>()
    });
    merged(results.expect("no thread panics"))
}

/// The sum of the counts, or the failure with the lowest number.
fn merged<C: AddAssign + Default, F>(results: Vec<Result<C, (u64, F)>>) -> Result<C, F> {
    let mut sum = C::default();
    let mut failures = Vec::new();
    for result in results {
        match result {
            Ok(counts) => sum += counts,
            Err(failure) => failures.push(failure),
        }
    }
    match failures.into_iter().min_by_key(|(number, _)| *number) {
        Some((_, failure)) => Err(failure),
        None => Ok(sum),
    }
}

/// Compares every judge with the unrelated checker on the traces of a seed.
fn compare(judges: &[Judge], traces: u64, seed: u64) -> Result<Counts, Box<Difference>> {
    spread("traces", traces, |_, number, counts: &mut Counts| {
        let given = given(seed, number);
        let outcome = reference::judge(&given.trace, given.area.len());
        counts.add(&given, &outcome);
        let expected = given.expected(&outcome);
        for judge in judges {
            let returned = given.judged(judge);
            if returned != expected {
                return Err(Box::new(Difference {
                    judge: judge.name,
                    number,
                    given,
                    expected,
                    returned,
                }));
            }
        }
        Ok(())
    })
}

/// A file in the folder `target/` of the repository.
pub fn target_file(name: &str) -> PathBuf {
    Path::new(concat!(env!("CARGO_MANIFEST_DIR"), "/../target")).join(name)
}

/// Writes a trace to a file; a line says where it is.
pub fn saved(path: &Path, trace: &[u8]) -> String {
    match std::fs::write(path, trace) {
        Ok(()) => format!("written to {}\n", path.display()),
        Err(error) => format!("not written to {}: {error}\n", path.display()),
    }
}

/// The lines for standard output, or, for a failure, those for standard error.
pub fn command(judges: &[Judge], traces: u64, seed: u64) -> Result<String, String> {
    match compare(judges, traces, seed) {
        Ok(counts) => {
            let text = counted(&counts.named(), traces >= TRACES)?;
            let names: Vec<_> = judges.iter().map(|judge| judge.name).collect();
            let names = names.join(", ");
            Ok(format!(
                "{text}judges compared with reference: {names}\nseed {seed}\ndiffer 0\n"
            ))
        }
        Err(difference) => Err(difference.report(seed, &target_file(FILE))),
    }
}

#[cfg(test)]
pub mod tests {
    use super::*;
    use crate::judge::judge;
    use crate::no_bytes::tests::{
        back_to_size, beyond_size, changed, hidden, replaced, set_empty_ends, set_findings, with_8,
        with_byte,
    };
    use crate::plain::tests::{judge_from_start, judge_whole};
    use crate::shared::tests::{
        first_refused, refuse_before_9, refuse_empty_inside, refuse_touching, take_last_byte,
        take_shared,
    };
    use reference::event::Event;

    pub const RIGHT: Judge = Judge {
        name: "right",
        call: judge,
    };

    /// Judges that do something wrong, which needs no model to be seen.
    pub const WRONG: [Judge; 14] = [
        wrong("flips a kind byte", |trace, area| {
            let answer = judge(trace, area);
            flip(answer, area, |_| 0, 0x80)
        }),
        wrong("sets a zero byte", |trace, area| {
            let answer = judge(trace, area);
            flip(answer, area, |length| length - 11, 1)
        }),
        wrong("writes behind the findings", |trace, area| {
            let answer = judge(trace, area);
            flip(answer, area, |length| length, 1)
        }),
        wrong("writes on a refusal", |trace, area| {
            let answer = judge(trace, area);
            if let (Answer::Refused { .. }, Some(last)) = (answer, area.last_mut()) {
                *last ^= 1;
            }
            answer
        }),
        wrong("answers the record after", |trace, area| {
            match judge(trace, area) {
                Answer::Refused { number, record } => Answer::Refused {
                    number,
                    record: record + 1,
                },
                accepted => accepted,
            }
        }),
        wrong("accepts refused traces", |trace, area| {
            match judge(trace, area) {
                Answer::Refused { record, .. } => Answer::Accepted {
                    events: record,
                    fences: 0,
                    findings: 0,
                },
                accepted => accepted,
            }
        }),
        wrong("counts a finding more", |trace, area| {
            match judge(trace, area) {
                Answer::Accepted {
                    events,
                    fences,
                    findings,
                } => Answer::Accepted {
                    events,
                    fences,
                    findings: findings + 1,
                },
                refused => refused,
            }
        }),
        wrong("still gives 8", |trace, area| {
            match judge(&hidden(trace), area) {
                Answer::Refused { number, record } => Answer::Refused {
                    number: with_8(trace, number, record),
                    record,
                },
                accepted => accepted,
            }
        }),
        wrong("takes ranges that share a byte", |trace, area| {
            judge(&changed(trace, take_shared), area)
        }),
        wrong("takes ranges that share a last byte", |trace, area| {
            judge(&changed(trace, take_last_byte), area)
        }),
        wrong("refuses ranges that touch by 18", |trace, area| {
            judge(&changed(trace, refuse_touching), area)
        }),
        wrong("refuses no bytes inside by 18", |trace, area| {
            judge(&changed(trace, refuse_empty_inside), area)
        }),
        wrong("gives 18 before 9", |trace, area| {
            judge(&changed(trace, refuse_before_9), area)
        }),
        wrong("gives 18 with a number from 0", |trace, area| {
            match judge(trace, area) {
                Answer::Refused { number: 18, record } => Answer::Refused {
                    number: 18,
                    record: record - 1,
                },
                answer => answer,
            }
        }),
    ];

    /// Flips bits of the site in the last finding, which only a model can tell.
    const WRONG_SITE: Judge = wrong("flips a byte of a site", |trace, area| {
        let answer = judge(trace, area);
        flip(answer, area, |length| length - 1, 0x10)
    });

    /// Take torn stores by another rule, which only a model can tell.
    const WRONG_WORDS: [Judge; 2] = [
        wrong("takes a store on one line as whole", judge_whole),
        wrong("takes words from the store's start", judge_from_start),
    ];

    /// Take ranges of no bytes by another rule, which only a model can tell.
    const WRONG_NO_BYTES: [Judge; 9] = [
        wrong(
            "takes a store of no bytes for one at an end",
            |trace, area| {
                let answer = judge(trace, area);
                set_empty_ends(trace, area, answer, Kind::Holds)
            },
        ),
        wrong("refuses at the window's size", |trace, area| {
            judge(&replaced(trace, beyond_size), area)
        }),
        wrong("takes beyond the window's size", |trace, area| {
            judge(&replaced(trace, back_to_size), area)
        }),
        wrong("stores to the byte at the address", |trace, area| {
            judge(&with_byte(trace, Event::STORE), area)
        }),
        wrong("writes back the line of the address", |trace, area| {
            judge(&with_byte(trace, Event::WRITE_BACK), area)
        }),
        wrong("logs the byte at the address", |trace, area| {
            judge(&with_byte(trace, Event::LOG), area)
        }),
        wrong("calls a persisted lost", |trace, area| {
            let answer = judge(trace, area);
            set_findings(trace, area, answer, (Event::PERSISTED, 2), Kind::Lost)
        }),
        wrong("calls an ordered out of order by A", |trace, area| {
            let answer = judge(trace, area);
            set_findings(trace, area, answer, (Event::ORDERED, 2), Kind::OutOfOrder)
        }),
        wrong("calls an ordered out of order by B", |trace, area| {
            let answer = judge(trace, area);
            set_findings(trace, area, answer, (Event::ORDERED, 6), Kind::OutOfOrder)
        }),
    ];

    /// Looks for shared bytes in all records first, which only a model can tell.
    const WRONG_ORDER: Judge = wrong("gives 18 before an earlier record's", |trace, area| match (
        judge(trace, area),
        first_refused(trace),
    ) {
        (Answer::Refused { record: 1.., .. }, Some(record)) => {
            Answer::Refused { number: 18, record }
        }
        (answer, _) => answer,
    });

    const fn wrong(name: &'static str, call: fn(&[u8], &mut [u8]) -> Answer) -> Judge {
        Judge { name, call }
    }

    /// Flips bits of the byte at a place that follows from the length of the findings.
    fn flip(answer: Answer, area: &mut [u8], at: fn(usize) -> usize, bits: u8) -> Answer {
        if let Answer::Accepted {
            events: events @ 1..,
            ..
        } = answer
        {
            if let Some(byte) = area.get_mut(at(RECORD * events as usize)) {
                *byte ^= bits;
            }
        }
        answer
    }

    fn difference(judges: &[Judge]) -> Box<Difference> {
        let found = compare(judges, 3_000, 1).err();
        found.unwrap_or_else(|| panic!("no difference found: {}", judges[0].name))
    }

    #[test]
    fn the_proved_judge_agrees() {
        let counts = compare(&[RIGHT, RIGHT], 3_000, 5).ok().unwrap();
        assert_eq!(counts.traces, 3_000);
        assert!(counted(&counts.named(), true).is_ok());
    }

    #[test]
    fn every_wrong_judge_is_found() {
        let by_model = WRONG_WORDS.iter().chain(&WRONG_NO_BYTES);
        let by_model = by_model.chain([&WRONG_SITE, &WRONG_ORDER]);
        for judge in WRONG.iter().chain(by_model) {
            let found = difference(&[RIGHT, *judge]);
            assert_eq!(found.judge, judge.name);
            let again = difference(&[*judge]);
            assert_eq!(found.number, again.number, "{}", judge.name);
        }
    }

    #[test]
    fn a_difference_is_reported_and_its_trace_saved() {
        let found = difference(&[WRONG_SITE]);
        let file = target_file("harness-test-difference.trace");
        let report = found.report(1, &file);
        let saved = std::fs::read(&file).unwrap();
        std::fs::remove_file(&file).unwrap();
        assert_eq!(saved, given(1, found.number).trace);
        let Some(Answer::Accepted { events, .. }) = found.returned.answer else {
            panic!("{report}");
        };
        let at = RECORD * events as usize - 1;
        let right = found.expected.buffer[found.given.area.start + at];
        let byte = format!("area byte {at}: reference {right:02x}h, ");
        let again = format!("harness differential {} 1\n", found.number);
        assert!(
            report.contains(&byte) && report.contains(&again),
            "{report}"
        );
        assert!(report.contains("harness-test-difference.trace"), "{report}");
    }

    #[test]
    fn a_trace_follows_from_seed_and_number() {
        let (one, same, other) = (given(1, 9), given(1, 9), given(2, 9));
        assert!(one.trace == same.trace && one.buffer == same.buffer);
        assert!(one.buffer != other.buffer);
    }

    #[test]
    fn what_is_not_covered_fails_if_all_is_asked() {
        let named = |name: &str, count| [(name.to_string(), count)];
        assert_eq!(
            counted(&named("accepted", 0), false).unwrap(),
            "accepted 0\n"
        );
        let text = counted(&named("accepted", 0), true).unwrap_err();
        assert!(text.ends_with("not covered: accepted\n"));
        assert!(counted(&named("accepted", 1), true).is_ok());
        assert!(counted(&named("refused by 10", 0), true).is_ok());
    }

    #[test]
    fn guard_bytes_and_trace_bytes_are_named() {
        let given = Given::new(&mut Random::new(1), vec![0; 3], 24);
        let (start, end) = (given.area.start, given.area.end);
        assert_eq!(given.place(start - 1), "byte 1 before the area");
        assert_eq!(given.place(end - 1), "area byte 23");
        assert_eq!(given.place(end), "byte 0 behind the area");
    }
}
