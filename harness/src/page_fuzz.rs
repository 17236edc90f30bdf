//! `fuzz`: a layout of findings on arbitrary strings of bytes. What it answers is checked without a
//! model.

use crate::areas::rows;
use crate::differential::{
    add_each, bytes, counted, first_different, random_for, saved, spread, target_file,
};
use crate::fuzz::{watched, LIMIT, STRINGS};
use crate::plain_pages::{length, LINE, MOST_FINDINGS};
use crate::printing::{Layout, Memory};
use reference::random::Random;
use reference::trace::RECORD;
use std::fmt::Write;
use std::ops::AddAssign;
use std::path::Path;
use std::sync::atomic::{AtomicU64, Ordering::Relaxed};

/// The files in `target/` that take a string.
const BAD_FILE: &str = "harness-bad.findings";
const HANG_FILE: &str = "harness-hang.findings";

/// The numbers that a call can be refused by.
const REFUSALS: [u32; 4] = [5, 6, 7, 16];

type Drawn = fn(&mut Random) -> Vec<u8>;

/// The classes of strings; a string's number chooses its class.
const CLASSES: [(&str, Drawn); 4] = [
    ("(a) any bytes", any_bytes),
    ("(b) any fields of good findings", good_findings),
    ("(c) good findings but for a few bytes", nearly_good),
    ("(d) lengths around the most findings", edge_lengths),
];

fn class_of(number: u64) -> usize {
    ((number - 1) % CLASSES.len() as u64) as usize
}

/// A string taken for a findings area, and the page area for it.
struct Given {
    string: Vec<u8>,
    memory: Memory,
}

/// String `number` of a seed.
fn given(seed: u64, number: u64) -> Given {
    let mut random = random_for(seed, number);
    let string = CLASSES[class_of(number)].1(&mut random);
    let room = room(&mut random, &string);
    let memory = Memory::new(&mut random, room);
    Given { string, memory }
}

fn any_bytes(random: &mut Random) -> Vec<u8> {
    let length = match random.below(200) {
        0 => random.below(20_000),
        _ => random.below(101),
    };
    bytes(random, length)
}

/// Any bytes, with a kind up to 8 and a zero byte for each finding.
fn good_findings(random: &mut Random) -> Vec<u8> {
    let count = match random.below(200) {
        0 => random.below(5_000),
        1..=20 => random.below(200),
        _ => random.below(10),
    };
    good(random, count)
}

fn good(random: &mut Random, count: usize) -> Vec<u8> {
    let kinds = random.pick(&[1, 2, 9, 9, 9]);
    let mut string = bytes(random, RECORD * count);
    for finding in string.chunks_exact_mut(RECORD) {
        finding[0] = random.below(kinds) as u8;
        finding[1] = 0;
    }
    string
}

/// One to four bytes of good findings set to any value; some are cut or extended.
fn nearly_good(random: &mut Random) -> Vec<u8> {
    let mut string = good_findings(random);
    for _ in 0..1 + random.below(4) {
        if !string.is_empty() {
            let at = random.below(string.len());
            let start = at - at % RECORD;
            let at = random.pick(&[at, start, start + 1]);
            string[at] = random.bits() as u8;
        }
    }
    match random.below(8) {
        0 => string.truncate(string.len().saturating_sub(random.below(RECORD))),
        1 => string.push(0),
        _ => {}
    }
    string
}

/// Few good findings, or zero bytes up to the most findings and beyond.
fn edge_lengths(random: &mut Random) -> Vec<u8> {
    let mut string = good_findings(random);
    if random.chance(1, 100) {
        let edge = RECORD * MOST_FINDINGS - RECORD;
        string.resize(edge + random.below(3 * RECORD), 0);
    } else if random.chance(1, 200) {
        let beside = random.below(3);
        string = good(random, MOST_FINDINGS - 1 + beside);
    } else {
        let length = RECORD * random.below(6) + random.below(2);
        string.resize(length, 0);
    }
    string
}

/// The length of a page area: around what the rows need, or any.
fn room(random: &mut Random, string: &[u8]) -> usize {
    let needed = length(rows(string));
    match random.below(8) {
        0 => random.below(needed),
        1 => random.below(400),
        2 => needed - 1,
        3 | 4 => needed + random.below(200),
        _ => needed,
    }
}

/// What a call did that no call may do.
fn violation(given: &Given, returned: &Memory, kept: bool) -> Option<String> {
    if !kept {
        return Some("the string changed".to_string());
    }
    if !returned.same_guards(&given.memory) {
        return Some("a number beside the answer changed".to_string());
    }
    let [_, _, length] = returned.answer();
    bad_answer(given, returned.answer())
        .or_else(|| changed(given, returned, length as usize))
        .or_else(|| bad_lines(returned, length as usize))
}

/// An answer that no call gives to so many bytes and rows.
fn bad_answer(given: &Given, [number, position, written]: [u32; 3]) -> Option<String> {
    let whole = (given.string.len() / RECORD) as u32;
    let good = match number {
        0 => {
            let fits = written as usize <= given.memory.area.len();
            position == 0 && fits && written as usize == length(rows(&given.string))
        }
        5 | 16 => position == 0 && written == 0,
        6 | 7 => (1..=whole).contains(&position) && written == 0,
        _ => false,
    };
    (!good).then(|| "no such answer".to_string())
}

/// The first byte that changed outside the pages.
fn changed(given: &Given, returned: &Memory, written: usize) -> Option<String> {
    let start = given.memory.area.start;
    let mut expected = given.memory.buffer.clone();
    expected[start..start + written].copy_from_slice(&returned.buffer[start..start + written]);
    let at = first_different(&expected, &returned.buffer)?;
    let place = returned.place(at);
    let (before, after) = (expected[at], returned.buffer[at]);
    Some(format!(
        "{place} changed from {before:02x}h to {after:02x}h"
    ))
}

/// A line of the pages that is not 61 columns and a line feed.
fn bad_lines(returned: &Memory, written: usize) -> Option<String> {
    let pages = &returned.buffer[returned.area.start..][..written];
    let plain = |byte: &u8| (b' '..=b'~').contains(byte);
    let bad = |line: &[u8]| line[LINE - 1] != b'\n' || !line[..LINE - 1].iter().all(plain);
    let at = pages.chunks_exact(LINE).position(bad)?;
    Some(format!("line {} is not 61 columns and a line feed", at + 1))
}

#[derive(Clone, Default)]
struct Counts {
    bytes: u64,
    /// Laid out, and refused by each number.
    answers: [u64; 1 + REFUSALS.len()],
    classes: [u64; CLASSES.len()],
    laid_out: [u64; CLASSES.len()],
}

impl Counts {
    fn add(&mut self, number: u64, given: &Given, answer: [u32; 3]) {
        self.bytes += given.string.len() as u64;
        self.classes[class_of(number)] += 1;
        self.laid_out[class_of(number)] += u64::from(answer[0] == 0);
        let at = REFUSALS.iter().position(|&number| number == answer[0]);
        self.answers[at.map_or(0, |at| at + 1)] += 1;
    }

    fn named(&self) -> Vec<(String, u64)> {
        let strings = self.classes.iter().sum();
        let mut named = vec![
            ("strings to the pages".to_string(), strings),
            ("bytes".to_string(), self.bytes),
            ("laid out".to_string(), self.answers[0]),
        ];
        let refused = REFUSALS.iter().zip(&self.answers[1..]);
        named.extend(refused.map(|(number, &count)| (format!("refused by {number}"), count)));
        named
    }

    fn class_lines(&self) -> String {
        let mut lines = String::new();
        for (class, (name, _)) in CLASSES.iter().enumerate() {
            let (strings, laid_out) = (self.classes[class], self.laid_out[class]);
            writeln!(lines, "{name}: {strings} strings, {laid_out} laid out")
                .expect("a string takes text");
        }
        lines
    }
}

impl AddAssign for Counts {
    fn add_assign(&mut self, other: Counts) {
        self.bytes += other.bytes;
        add_each(&mut self.answers, &other.answers);
        add_each(&mut self.classes, &other.classes);
        add_each(&mut self.laid_out, &other.laid_out);
    }
}

/// A string with a violation.
struct Bad {
    number: u64,
    given: Given,
    answer: [u32; 3],
    what: String,
}

impl Bad {
    /// What is wrong, in lines. The string goes to the file.
    fn report(&self, layout: &str, seed: u64, file: &Path) -> String {
        let number = self.number;
        format!(
            "fuzz: layout {layout} on string {number} of seed {seed}: {}\nanswer: {:?}\n{}{}",
            self.what,
            self.answer,
            again(&self.given, seed, number),
            saved(file, &self.given.string)
        )
    }
}

fn again(given: &Given, seed: u64, number: u64) -> String {
    format!(
        "string of {} bytes, page area of {} bytes\n\
         it is the last string of: harness fuzz {number} {seed}\n",
        given.string.len(),
        given.memory.area.len()
    )
}

/// Lays the strings of a seed out. While a thread waits for an answer, its place in `waiting` has the
/// string's number, else 0.
fn lay_out_all(
    layout: &Layout,
    strings: u64,
    seed: u64,
    waiting: &[AtomicU64],
) -> Result<Counts, Box<Bad>> {
    spread("strings", strings, |thread, number, counts: &mut Counts| {
        let given = given(seed, number);
        waiting[thread].store(number, Relaxed);
        let (returned, kept) = given.memory.after(layout.call, &given.string);
        waiting[thread].store(0, Relaxed);
        let answer = returned.answer();
        match violation(&given, &returned, kept) {
            Some(what) => Err(Box::new(Bad {
                number,
                given,
                answer,
                what,
            })),
            None => {
                counts.add(number, &given, answer);
                Ok(())
            }
        }
    })
}

/// The lines for a string without an answer, which goes to a file.
fn hang_text(layout: &str, seed: u64, number: u64) -> String {
    let given = given(seed, number);
    format!(
        "fuzz: layout {layout} on string {number} of seed {seed}: no answer after {} s\n{}{}",
        LIMIT.as_secs(),
        again(&given, seed, number),
        saved(&target_file(HANG_FILE), &given.string)
    )
}

/// The lines for standard output, or, for a violation, those for standard error. A call that does
/// not return ends the program.
pub fn command(layout: &Layout, strings: u64, seed: u64) -> Result<String, String> {
    let result = watched(
        |waiting| lay_out_all(layout, strings, seed, waiting),
        |number| hang_text(layout.name, seed, number),
    );
    match result {
        Ok(counts) => {
            let text = counted(&counts.named(), strings >= STRINGS)?;
            let (name, classes) = (layout.name, counts.class_lines());
            Ok(format!(
                "{text}{classes}layout {name}\nseed {seed}\nbad 0\n"
            ))
        }
        Err(bad) => Err(bad.report(layout.name, seed, &target_file(BAD_FILE))),
    }
}

#[cfg(test)]
mod tests {
    use super::*;
    use crate::differential::threads;
    use crate::printing::tests::{RIGHT, WRONG};

    fn all(layout: &Layout, strings: u64, seed: u64) -> Result<Counts, Box<Bad>> {
        let waiting: Vec<AtomicU64> = (0..threads()).map(|_| AtomicU64::new(0)).collect();
        lay_out_all(layout, strings, seed, &waiting)
    }

    #[test]
    fn the_proved_layout_is_right() {
        let counts = all(&RIGHT, 10_000, 3).ok().unwrap();
        let named = counts.named();
        assert_eq!(named[0], ("strings to the pages".to_string(), 10_000));
        assert!(counted(&named, true).is_ok(), "{named:?}");
    }

    #[test]
    fn every_wrong_layout_is_found() {
        for layout in &WRONG {
            let found = all(layout, 5_000, 1).err();
            assert!(found.is_some(), "not found: {}", layout.name);
        }
    }

    #[test]
    fn a_violation_is_reported_and_its_string_saved() {
        let bad = all(&WRONG[0], 5_000, 1).err().unwrap();
        let file = target_file("harness-test-bad.findings");
        let report = bad.report("wrong", 1, &file);
        let saved = std::fs::read(&file).unwrap();
        std::fs::remove_file(&file).unwrap();
        assert_eq!(saved, given(1, bad.number).string);
        let behind = format!(": page area byte {}, line ", bad.answer[2]);
        let again = format!("harness fuzz {} 1\n", bad.number);
        assert!(
            report.contains(&behind) && report.contains(&again),
            "{report}"
        );
    }

    #[test]
    fn changes_around_the_area_are_violations() {
        let given = given(1, 2);
        let places = [
            0,
            given.memory.area.start - 1,
            given.memory.area.end,
            given.memory.buffer.len() - 1,
        ];
        let (right, kept) = given.memory.after(RIGHT.call, &given.string);
        assert_eq!(violation(&given, &right, kept), None);
        assert!(violation(&given, &right, false).is_some());
        for place in places {
            let mut returned = right.clone();
            returned.buffer[place] ^= 4;
            assert!(violation(&given, &returned, true).is_some());
        }
    }

    #[test]
    fn answers_are_well_formed() {
        let given = Given {
            string: vec![0; 24],
            memory: Memory::new(&mut Random::new(1), 124),
        };
        let bad = |answer| bad_answer(&given, answer).is_some();
        for number in 1..20 {
            let at_none = matches!(number, 5 | 16);
            let at_finding = matches!(number, 6 | 7);
            assert_eq!(bad([number, 0, 0]), !at_none);
            assert_eq!(bad([number, 1, 0]), !at_finding);
            assert_eq!(bad([number, 2, 0]), !at_finding);
            assert!(bad([number, 3, 0]) && bad([number, 0, 124]));
        }
        assert!(!bad([0, 0, 124]));
        assert!(bad([0, 1, 124]) && bad([0, 0, 62]) && bad([0, 0, 186]));
    }

    #[test]
    fn lines_of_other_columns_are_violations() {
        let given = Given {
            string: Vec::new(),
            memory: Memory::new(&mut Random::new(1), 124),
        };
        let (right, kept) = given.memory.after(RIGHT.call, &given.string);
        assert_eq!(violation(&given, &right, kept), None);
        for (place, byte) in [(0, b'\n'), (61, b' '), (61, 0), (62, 0), (123, b'x')] {
            let mut returned = right.clone();
            returned.buffer[right.area.start + place] = byte;
            assert!(violation(&given, &returned, true).is_some());
        }
    }
}
