//! `differential`: a writer compared with the unrelated one on random lists of calls.

use crate::differential::{
    add_each, answer_of, bytes, counted, first_different, random_for, spread, Answers, TRACES,
};
use crate::writer::Call;
use crate::{judge, lists, no_bytes, shared};
use reference::outcome::findings_bytes;
use reference::random::Random;
use reference::trace::{self, MAX_TRACE, RECORD};
use reference::writer;
use std::hint::black_box;
use std::ops::{AddAssign, Range};

/// Makes a call on an area, a writer's numbers and an answer.
pub type MakeCall = fn(&Call, &mut [u8], &mut [u32; 4], &mut [u32; 2]);

/// A writer, and the name that it is reported with.
#[derive(Clone, Copy)]
pub struct Writer {
    pub name: &'static str,
    pub call: MakeCall,
}

/// The unrelated writer. Of a writer's first and last number it takes the low 16 bits.
fn reference_call(call: &Call, area: &mut [u8], numbers: &mut [u32; 4], answer: &mut [u32; 2]) {
    let mut now = writer::Writer {
        lines: numbers[0] as u16,
        offset: numbers[1],
        count: numbers[2],
        open: numbers[3] as u16,
    };
    let result = match call {
        Call::Start { preamble, lines } => {
            writer::start(area, preamble, *lines).map(|started| now = started)
        }
        Call::Event(record) => writer::event(area, &mut now, record),
        Call::Close => {
            *answer = match writer::close(area, &now) {
                Ok(length) => [0, length as u32],
                Err(number) => [u32::from(number), 0],
            };
            return;
        }
    };
    *answer = [result.err().map_or(0, u32::from), 0];
    if result.is_ok() {
        *numbers = [now.lines.into(), now.offset, now.count, now.open.into()];
    }
}

/// What calls can change: an area, a writer's numbers and an answer, each between guards.
#[derive(Clone, PartialEq, Eq)]
struct Memory {
    buffer: Vec<u8>,
    area: Range<usize>,
    numbers: Numbers,
}

/// The arrays stand in this order without gaps.
#[derive(Clone, Debug, PartialEq, Eq)]
#[repr(C)]
struct Numbers {
    before: [u32; 4],
    writer: [u32; 4],
    between: [u32; 4],
    answer: [u32; 2],
    behind: [u32; 4],
}

impl Memory {
    /// Every byte is random, and so is every number but the writer's.
    fn new(random: &mut Random, area_len: usize, writer: [u32; 4]) -> Memory {
        let start = 16 + random.below(16);
        let area = start..start + area_len;
        let behind = 16 + random.below(16);
        let buffer = bytes(random, area.end + behind);
        let mut any = || random.bits() as u32;
        let numbers = Numbers {
            before: std::array::from_fn(|_| any()),
            writer,
            between: std::array::from_fn(|_| any()),
            answer: std::array::from_fn(|_| any()),
            behind: std::array::from_fn(|_| any()),
        };
        Memory {
            buffer,
            area,
            numbers,
        }
    }

    /// Makes a call, with an answer before it that no call gives.
    fn make(&mut self, make: MakeCall, call: &Call) {
        let area = &mut self.buffer[self.area.clone()];
        // The compiler may not take the guards for unchanged.
        let numbers = black_box(&mut self.numbers);
        numbers.answer = [u32::MAX; 2];
        make(call, area, &mut numbers.writer, &mut numbers.answer);
    }

    fn area(&self) -> &[u8] {
        &self.buffer[self.area.clone()]
    }
}

/// A list of calls, and what they are made on.
struct List {
    calls: Vec<Call>,
    memory: Memory,
}

/// List `number` of a seed.
fn given(seed: u64, number: u64) -> List {
    let mut random = random_for(seed, number);
    let (calls, writer) = lists::drawn(&mut random);
    let area_len = area_length(&mut random, needed(&calls, writer));
    let memory = Memory::new(&mut random, area_len, writer);
    List { calls, memory }
}

/// The bytes that the file has after the last accepted call, in an area that is long enough.
fn needed(calls: &[Call], mut writer: [u32; 4]) -> usize {
    let mut area = vec![0; 2 * MAX_TRACE];
    let mut needed = 0;
    for call in calls {
        let mut answer = [0; 2];
        reference_call(call, &mut area, &mut writer, &mut answer);
        if answer[0] == 0 {
            let end = writer[1] as usize + RECORD * writer[2] as usize;
            needed = end.max(answer[1] as usize);
        }
    }
    needed
}

/// The length of an area: as needed in many lists, longer, or too short.
fn area_length(random: &mut Random, needed: usize) -> usize {
    match random.below(20) {
        0 => random.below(needed + 1),
        1..=5 => needed.saturating_sub(1 + random.below(3 * RECORD)),
        6..=9 => needed + 1 + random.below(40),
        _ => needed,
    }
}

/// What a start and the events since were accepted with: the file is to be read back as this.
struct Written {
    preamble: Vec<u8>,
    lines: u16,
    records: Vec<[u8; RECORD]>,
}

impl Written {
    /// What is wrong with the closed file, if anything.
    fn problem(&self, file: &[u8]) -> Option<String> {
        let body = match trace::open(file) {
            Ok(body) => body,
            Err(number) => return Some(format!("the trailer is refused by {number}")),
        };
        if (body.lines, body.free) != (self.lines, &self.preamble[..]) {
            return Some("lines or preamble are not read back".to_string());
        }
        if !body.record_bytes().eq(&self.records) {
            return Some("the records are not read back".to_string());
        }
        let mut area = vec![0; RECORD * self.records.len()];
        let outcome = reference::judge(file, area.len());
        let answer = judge::judge(file, &mut area);
        if outcome.report().is_none() {
            return Some(format!("the file is refused: {outcome:?}"));
        }
        let same = answer == answer_of(&outcome) && area == findings_bytes(&outcome);
        (!same).then(|| format!("the judge answers {answer:?} to the file, or finds otherwise"))
    }
}

/// The kinds of call, with the answers that each can have.
const ANSWERS: [(&str, &[usize]); 3] = [
    ("start", &[0, 4, 2, 15]),
    ("event", &[0, 2, 6, 7, 9, 18, 11, 12, 15]),
    ("closing", &[0, 13, 15]),
];

fn kind_of(call: &Call) -> usize {
    match call {
        Call::Start { .. } => 0,
        Call::Event(_) => 1,
        Call::Close => 2,
    }
}

/// What the calls covered, by the answers of the unrelated writer.
#[derive(Clone, Default)]
struct Counts {
    lists: u64,
    /// By the kind of call.
    answers: [Answers; 3],
    /// Events with a range of no bytes accepted, and events without another range refused by 9.
    no_bytes: [u64; 2],
    shared: shared::Counts,
    /// Calls accepted of a writer that no start handed over.
    any_numbers: u64,
    /// Events that took a trailer's place.
    reopened: u64,
    files: u64,
    longest_files: u64,
}

impl Counts {
    /// Counts a call by the number of its answer.
    fn add(&mut self, call: &Call, number: u32) {
        self.answers[kind_of(call)][number as usize] += 1;
        if let Call::Event(record) = call {
            self.no_bytes[0] += u64::from(number == 0 && no_bytes::any_in(record));
            self.no_bytes[1] += u64::from(number == 9 && no_bytes::all_in(record));
            self.shared.add(record, number);
        }
    }

    fn named(&self) -> Vec<(String, u64)> {
        let mut named = vec![("lists of calls to the writer".to_string(), self.lists)];
        for ((call, numbers), counts) in ANSWERS.iter().zip(&self.answers) {
            named.extend(numbers.iter().map(|&number| {
                let name = match number {
                    0 => format!("{call} accepted"),
                    _ => format!("{call} refused by {number}"),
                };
                (name, counts[number])
            }));
        }
        let [taken, refused] = self.no_bytes;
        let no_bytes = [
            ("events accepted with a range of no bytes", taken),
            ("events refused by 9 for a range of no bytes", refused),
        ];
        named.extend(no_bytes.map(|(name, count)| (name.to_string(), count)));
        named.extend(self.shared.named());
        let rest = [
            (
                "calls accepted of a writer of any numbers",
                self.any_numbers,
            ),
            ("events in a trailer's place", self.reopened),
            ("files read back and judged", self.files),
            ("files of 65,536 bytes", self.longest_files),
        ];
        named.extend(rest.map(|(name, count)| (name.to_string(), count)));
        named
    }
}

impl AddAssign for Counts {
    fn add_assign(&mut self, other: Counts) {
        self.lists += other.lists;
        for (answers, others) in self.answers.iter_mut().zip(&other.answers) {
            add_each(answers, others);
        }
        add_each(&mut self.no_bytes, &other.no_bytes);
        self.shared += other.shared;
        self.any_numbers += other.any_numbers;
        self.reopened += other.reopened;
        self.files += other.files;
        self.longest_files += other.longest_files;
    }
}

/// A call after which something is not as it has to be.
struct Difference {
    writer: &'static str,
    list: u64,
    /// The number of the call in its list, from 1.
    number: usize,
    call: Call,
    expected: Memory,
    returned: Memory,
    what: String,
}

impl Difference {
    /// What differs, in lines.
    fn report(&self, seed: u64) -> String {
        let (writer, list) = (self.writer, self.list);
        let (expected, returned) = (&self.expected.numbers, &self.returned.numbers);
        format!(
            "differential: writer {writer} differs from reference on call {} of list {list} of seed {seed}\n\
             call: {}\nreference: {expected:?}\n{writer}: {returned:?}\n{}\n\
             area of {} bytes\n\
             it is in the last list of: harness differential {list} {seed}\n",
            self.number,
            call_text(&self.call),
            self.what,
            self.expected.area.len(),
        )
    }
}

fn call_text(call: &Call) -> String {
    match call {
        Call::Start { preamble, lines } => {
            format!(
                "start with a preamble of {} bytes, {lines} lines",
                preamble.len()
            )
        }
        Call::Event(record) => format!("event {record:?}"),
        Call::Close => "closing".to_string(),
    }
}

/// A list while its calls are made: on one memory by the unrelated writer, on the other by the
/// writer compared.
struct Run {
    expected: Memory,
    returned: Memory,
    /// None before an accepted start.
    written: Option<Written>,
    /// Whether the file is closed and no event was accepted since.
    closed: bool,
}

impl Run {
    /// Makes a call on both; says what is wrong after it, if anything.
    fn make(&mut self, writer: &Writer, call: &Call, counts: &mut Counts) -> Option<String> {
        let before = call.clone();
        self.expected.make(reference_call, call);
        self.returned.make(writer.call, call);
        let [number, length] = self.expected.numbers.answer;
        counts.add(call, number);
        if *call != before {
            return Some("the preamble changed".to_string());
        }
        if self.returned != self.expected {
            return Some(self.difference(writer.name));
        }
        match number {
            0 => self.follow(call, length as usize, counts),
            _ => None,
        }
    }

    fn difference(&self, writer: &str) -> String {
        let (expected, returned) = (&self.expected, &self.returned);
        let Some(at) = first_different(&expected.buffer, &returned.buffer) else {
            return "no byte of the area differs".to_string();
        };
        let place = at as i64 - expected.area.start as i64;
        let (expected, returned) = (expected.buffer[at], returned.buffer[at]);
        format!("area byte {place}: reference {expected:02x}h, {writer} {returned:02x}h")
    }

    /// An accepted call; a closed file is read back and judged.
    fn follow(&mut self, call: &Call, length: usize, counts: &mut Counts) -> Option<String> {
        let closed = std::mem::replace(&mut self.closed, matches!(call, Call::Close));
        if let Call::Start { preamble, lines } = call {
            self.written = Some(Written {
                preamble: preamble.clone(),
                lines: *lines,
                records: Vec::new(),
            });
            return None;
        }
        let Some(written) = &mut self.written else {
            counts.any_numbers += 1;
            return None;
        };
        if let Call::Event(record) = call {
            written.records.push(*record);
            counts.reopened += u64::from(closed);
            return None;
        }
        counts.files += 1;
        counts.longest_files += u64::from(length == MAX_TRACE);
        written.problem(&self.returned.area()[..length])
    }
}

/// Makes the calls of a list.
fn compare_list(
    writer: &Writer,
    list: u64,
    given: &List,
    counts: &mut Counts,
) -> Result<(), Box<Difference>> {
    let mut run = Run {
        expected: given.memory.clone(),
        returned: given.memory.clone(),
        written: None,
        closed: false,
    };
    counts.lists += 1;
    for (call, number) in given.calls.iter().zip(1..) {
        if let Some(what) = run.make(writer, call, counts) {
            return Err(Box::new(Difference {
                writer: writer.name,
                list,
                number,
                call: call.clone(),
                expected: run.expected,
                returned: run.returned,
                what,
            }));
        }
    }
    Ok(())
}

/// Compares a writer with the unrelated one on the lists of a seed.
fn compare(writer: &Writer, lists: u64, seed: u64) -> Result<Counts, Box<Difference>> {
    spread("lists of calls", lists, |_, number, counts: &mut Counts| {
        compare_list(writer, number, &given(seed, number), counts)
    })
}

/// The lines for standard output, or, for a failure, those for standard error.
pub fn command(writer: &Writer, lists: u64, seed: u64) -> Result<String, String> {
    match compare(writer, lists, seed) {
        Ok(counts) => {
            let text = counted(&counts.named(), lists >= TRACES)?;
            let name = writer.name;
            Ok(format!(
                "{text}writer compared with reference: {name}\nseed {seed}\ndiffer 0\n"
            ))
        }
        Err(difference) => Err(difference.report(seed)),
    }
}

#[cfg(test)]
mod tests {
    use super::*;
    use crate::no_bytes::tests::{back_to_size, beyond_size, hide, replace_in, Replace};
    use crate::shared::tests::{
        refuse_before_9, refuse_empty_inside, refuse_touching, take_last_byte, take_shared,
    };
    use crate::writer::call as right_call;
    use reference::event::LINE;
    use reference::trace::TRAILER;
    use reference::{Event, Record};

    const RIGHT: Writer = Writer {
        name: "right",
        call: right_call,
    };

    /// Writers that do something wrong.
    const WRONG: [Writer; 27] = [
        wrong(
            "puts an event behind the trailer",
            |call, area, writer, answer| {
                let end = end_of(writer);
                let mark = area.get(end..end + 4).map(|mark| mark == trace::MARK);
                right_call(call, area, writer, answer);
                if answer[0] == 0 && is_event(call) && mark == Some(true) && area.len() >= end + 28
                {
                    area[end..end + 28].rotate_left(RECORD);
                }
            },
        ),
        wrong(
            "touches the byte behind the trailer",
            |call, area, writer, answer| {
                right_call(call, area, writer, answer);
                if let (Call::Close, [0, length]) = (call, *answer) {
                    flip(area, length as usize);
                }
            },
        ),
        wrong("forgets the depth", |call, area, writer, answer| {
            right_call(call, area, writer, answer);
            writer[3] = 0;
        }),
        wrong("counts a refused event", |call, area, writer, answer| {
            right_call(call, area, writer, answer);
            writer[2] += u32::from(answer[0] == 9);
        }),
        wrong(
            "writes the record of a refused event",
            |call, area, writer, answer| {
                right_call(call, area, writer, answer);
                if let (Call::Event(record), [12, _]) = (call, *answer) {
                    let end = end_of(writer);
                    if let Some(place) = area.get_mut(end..end + RECORD) {
                        place.copy_from_slice(record);
                    }
                }
            },
        ),
        wrong(
            "writes the trailer of a refused closing",
            |call, area, writer, answer| {
                right_call(call, area, writer, answer);
                if let (Call::Close, [13, _]) = (call, *answer) {
                    right_call(
                        call,
                        area,
                        &mut [writer[0], writer[1], writer[2], 0],
                        &mut [0; 2],
                    );
                }
            },
        ),
        wrong(
            "writes the preamble of a refused start",
            |call, area, writer, answer| {
                right_call(call, area, writer, answer);
                if let (Call::Start { preamble, .. }, [4, _]) = (call, *answer) {
                    let count = preamble.len().min(area.len());
                    area[..count].copy_from_slice(&preamble[..count]);
                }
            },
        ),
        wrong(
            "hands over a writer at a refused start",
            |call, area, writer, answer| {
                right_call(call, area, writer, answer);
                if let (Call::Start { lines, .. }, [15, _]) = (call, *answer) {
                    *writer = [u32::from(*lines), 0, 0, 0];
                }
            },
        ),
        wrong(
            "asks for room for the trailer",
            |call, area, writer, answer| {
                let short = is_event(call) && area.len() < end_of(writer) + RECORD + TRAILER;
                match short {
                    true => *answer = [15, 0],
                    false => right_call(call, area, writer, answer),
                }
            },
        ),
        wrong(
            "gives 15 before the other numbers",
            |call, area, writer, answer| {
                let short = is_event(call) && area.len() < end_of(writer) + RECORD;
                match short {
                    true => *answer = [15, 0],
                    false => right_call(call, area, writer, answer),
                }
            },
        ),
        wrong("gives 6 before 2", |call, area, writer, answer| {
            right_call(call, area, writer, answer);
            if let (Call::Event([0 | 9.., ..]), [2, _]) = (call, *answer) {
                answer[0] = 6;
            }
        }),
        wrong("gives 2 before 4", |call, area, writer, answer| {
            right_call(call, area, writer, answer);
            if let (Call::Start { preamble, .. }, [4, _]) = (call, *answer) {
                answer[0] = if preamble.len() + TRAILER > MAX_TRACE {
                    2
                } else {
                    4
                };
            }
        }),
        wrong(
            "answers the length without the preamble",
            |call, area, writer, answer| {
                right_call(call, area, writer, answer);
                answer[1] = answer[1].wrapping_sub(if answer[1] > 0 { writer[1] } else { 0 });
            },
        ),
        wrong(
            "keeps the answer of an event",
            |call, area, writer, answer| {
                let before = *answer;
                right_call(call, area, writer, answer);
                if is_event(call) && answer[0] == 0 {
                    *answer = before;
                }
            },
        ),
        wrong("still gives 8", |call, area, writer, answer| {
            let mut hidden = call.clone();
            if let Call::Event(record) = &mut hidden {
                hide(record);
            }
            right_call(&hidden, area, writer, answer);
            if answer[0] == 6 && hidden != *call {
                answer[0] = 8;
            }
        }),
        wrong(
            "refuses no bytes at the window's size",
            |call, area, writer, answer| {
                right_call(&replaced(call, writer, beyond_size), area, writer, answer);
            },
        ),
        wrong(
            "takes no bytes beyond the window's size",
            |call, area, writer, answer| {
                let other = replaced(call, writer, back_to_size);
                call_as(&other, call, area, writer, answer);
            },
        ),
        wrong(
            "writes no bytes at address 0",
            |call, area, writer, answer| {
                let end = end_of(writer);
                right_call(call, area, writer, answer);
                if let (Call::Event(mut record), [0, _]) = (call.clone(), *answer) {
                    replace_in(&mut record, 0, |_, _| reference::Range::new(0, 0));
                    area[end..end + RECORD].copy_from_slice(&record);
                }
            },
        ),
        wrong(
            "leaves out a record of no bytes",
            |call, area, writer, answer| match call {
                Call::Event(record) if no_bytes::any_in(record) => {
                    let (mut area, mut writer) = (area.to_vec(), *writer);
                    right_call(call, &mut area, &mut writer, answer);
                }
                _ => right_call(call, area, writer, answer),
            },
        ),
        wrong(
            "takes ranges that share a byte",
            |call, area, writer, answer| {
                let other = changed(call, writer, take_shared);
                call_as(&other, call, area, writer, answer);
            },
        ),
        wrong(
            "takes ranges that share a last byte",
            |call, area, writer, answer| {
                let other = changed(call, writer, take_last_byte);
                call_as(&other, call, area, writer, answer);
            },
        ),
        wrong(
            "refuses ranges that touch by 18",
            |call, area, writer, answer| {
                let other = changed(call, writer, refuse_touching);
                right_call(&other, area, writer, answer);
            },
        ),
        wrong(
            "refuses no bytes inside by 18",
            |call, area, writer, answer| {
                let other = changed(call, writer, refuse_empty_inside);
                right_call(&other, area, writer, answer);
            },
        ),
        wrong("gives 18 before 9", |call, area, writer, answer| {
            let other = changed(call, writer, refuse_before_9);
            right_call(&other, area, writer, answer);
        }),
        wrong("gives 18 before 2", |call, area, writer, answer| {
            let refused = shares(call, writer);
            right_call(call, area, writer, answer);
            if refused && answer[0] == 2 {
                answer[0] = 18;
            }
        }),
        wrong("gives 15 before 18", |call, area, writer, answer| {
            let short = area.len() < end_of(writer) + RECORD;
            right_call(call, area, writer, answer);
            if short && answer[0] == 18 {
                answer[0] = 15;
            }
        }),
        wrong(
            "counts an event refused by 18",
            |call, area, writer, answer| {
                right_call(call, area, writer, answer);
                writer[2] += u32::from(answer[0] == 18);
            },
        ),
    ];

    /// The call with its record changed for the writer's window.
    fn changed(call: &Call, writer: &[u32; 4], change: impl Fn(&mut [u8; RECORD], usize)) -> Call {
        let mut changed = call.clone();
        if let Call::Event(record) = &mut changed {
            change(record, window(writer));
        }
        changed
    }

    /// The call with the ranges of no bytes of its record replaced.
    fn replaced(call: &Call, writer: &[u32; 4], replace: Replace) -> Call {
        changed(call, writer, |record, window| {
            replace_in(record, window, replace)
        })
    }

    /// Makes another call; if it is accepted, the record written is the one of the call itself.
    fn call_as(
        other: &Call,
        call: &Call,
        area: &mut [u8],
        writer: &mut [u32; 4],
        answer: &mut [u32; 2],
    ) {
        let end = end_of(writer);
        right_call(other, area, writer, answer);
        if let (Call::Event(record), [0, _]) = (call, *answer) {
            area[end..end + RECORD].copy_from_slice(record);
        }
    }

    /// Whether it is an event that 18 refuses if no number comes before it.
    fn shares(call: &Call, writer: &[u32; 4]) -> bool {
        matches!(call, Call::Event(record) if shared::refused_by_18(record, window(writer)))
    }

    /// The bytes of the writer's window.
    fn window(writer: &[u32; 4]) -> usize {
        LINE * usize::from(writer[0] as u16)
    }

    const fn wrong(name: &'static str, call: MakeCall) -> Writer {
        Writer { name, call }
    }

    fn is_event(call: &Call) -> bool {
        matches!(call, Call::Event(_))
    }

    /// Where the next record or the trailer goes.
    fn end_of(writer: &[u32; 4]) -> usize {
        writer[1] as usize + RECORD * writer[2] as usize
    }

    fn flip(area: &mut [u8], at: usize) {
        if let Some(byte) = area.get_mut(at) {
            *byte ^= 1;
        }
    }

    fn difference(writer: &Writer) -> Box<Difference> {
        let found = compare(writer, 3_000, 1).err();
        found.unwrap_or_else(|| panic!("no difference found: {}", writer.name))
    }

    #[test]
    fn the_proved_writer_agrees() {
        let counts = compare(&RIGHT, 5_000, 5).ok().unwrap();
        assert_eq!(counts.lists, 5_000);
        let named = counts.named();
        assert!(counted(&named, true).is_ok(), "{named:?}");
    }

    #[test]
    fn every_answer_is_named() {
        let counts = compare(&RIGHT, 1_000, 6).ok().unwrap();
        let made: u64 = counts.answers.iter().flatten().sum();
        let answers: usize = ANSWERS.iter().map(|(_, numbers)| numbers.len()).sum();
        let named: u64 = counts.named()[1..=answers]
            .iter()
            .map(|(_, count)| count)
            .sum();
        assert_eq!(made, named);
    }

    #[test]
    fn every_wrong_writer_is_found() {
        for writer in &WRONG {
            assert_eq!(difference(writer).writer, writer.name);
        }
    }

    #[test]
    fn a_difference_is_reported() {
        let found = difference(&WRONG[1]);
        let report = found.report(1);
        let length = found.expected.numbers.answer[1];
        for part in [
            format!("call {} of list {} of seed 1\n", found.number, found.list),
            "call: closing\n".to_string(),
            format!("area byte {length}: reference "),
            format!("harness differential {} 1\n", found.list),
        ] {
            assert!(report.contains(&part), "{part}: {report}");
        }
    }

    #[test]
    fn guards_are_compared() {
        let given = given(1, 1);
        for change in [
            |memory: &mut Memory| memory.buffer[memory.area.start - 1] ^= 1,
            |memory: &mut Memory| memory.buffer[memory.area.end] ^= 1,
            |memory: &mut Memory| memory.numbers.before[3] ^= 1,
            |memory: &mut Memory| memory.numbers.between[0] ^= 1,
            |memory: &mut Memory| memory.numbers.behind[0] ^= 1,
        ] {
            let mut changed = given.memory.clone();
            change(&mut changed);
            assert!(changed != given.memory);
        }
    }

    #[test]
    fn a_file_with_another_record_is_found() {
        let mut area = [0; 64];
        let (mut writer, mut answer) = ([0; 4], [0; 2]);
        let fence = trace::encode(&Record {
            event: Event::Fence,
            site: 7,
        });
        let preamble = b"mine".to_vec();
        let start = Call::Start {
            preamble: preamble.clone(),
            lines: 2,
        };
        for call in [start, Call::Event(fence), Call::Close] {
            right_call(&call, &mut area, &mut writer, &mut answer);
        }
        let file = &area[..answer[1] as usize];
        let written = |preamble: &[u8], lines, records: &[[u8; RECORD]]| Written {
            preamble: preamble.to_vec(),
            lines,
            records: records.to_vec(),
        };
        assert_eq!(written(b"mine", 2, &[fence]).problem(file), None);
        assert!(written(b"mind", 2, &[fence]).problem(file).is_some());
        assert!(written(b"mine", 1, &[fence]).problem(file).is_some());
        assert!(written(b"mine", 2, &[[0; RECORD]]).problem(file).is_some());
        assert!(written(b"mine", 2, &[fence]).problem(&file[..5]).is_some());
    }

    #[test]
    fn a_list_follows_from_seed_and_number() {
        let (one, same, other) = (given(1, 9), given(1, 9), given(2, 9));
        assert!(one.calls == same.calls && one.memory == same.memory);
        assert!(one.memory != other.memory);
    }
}
