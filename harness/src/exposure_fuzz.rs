//! `fuzz`: an exposure on arbitrary strings of bytes. What it answers is checked with the judge's
//! answer, and without a model.

use crate::differential::{add_each, counted, random_for, saved, spread, target_file, Judge};
use crate::exposing::{named_answers, place_of, Exposing, Numbers, REFUSALS};
use crate::fuzz::{string, watched, BAD_FILE, HANG_FILE, LIMIT, STRINGS};
use crate::judge::Answer;
use reference::event::LINE;
use reference::trace::TRAILER;
use std::ops::AddAssign;
use std::path::Path;
use std::sync::atomic::{AtomicU64, Ordering::Relaxed};

/// What a call did that no call may do, if the judge gives this answer to the string.
fn violation(
    string: &[u8],
    judged: Answer,
    before: &Numbers<5>,
    returned: &Numbers<5>,
    kept: bool,
) -> Option<String> {
    if !kept {
        return Some("the string changed".to_string());
    }
    if !returned.same_guards(before) {
        return Some("a number beside the answer changed".to_string());
    }
    bad_answer(string, judged, returned.answer())
}

/// An answer that no call gives beside the judge's.
fn bad_answer(string: &[u8], judged: Answer, answer: [u32; 5]) -> Option<String> {
    let good = match judged {
        Answer::Refused { number, record } => answer == [number, record, 0, 0, 0],
        Answer::Accepted { fences, .. } => {
            answer == [17, 0, 0, 0, 0] || is_mean(answer, window(string), fences)
        }
    };
    (!good).then(|| format!("no such answer where the judge gives {judged:?}"))
}

/// Whether it can be the mean over bytes of such a window, each at risk from 1 epoch to as many as
/// there are fences.
fn is_mean(
    [number, record, quotient, remainder, divisor]: [u32; 5],
    window: u32,
    most: u32,
) -> bool {
    let between = quotient >= 1 && (quotient < most || quotient == most && remainder == 0);
    (number, record) == (0, 0) && divisor <= window && remainder < divisor && between
}

/// The bytes of the window that the trailer of an accepted string names.
fn window(string: &[u8]) -> u32 {
    let lines = string.len() - TRAILER + 12;
    let lines = u16::from_le_bytes([string[lines], string[lines + 1]]);
    u32::from(lines) * LINE as u32
}

#[derive(Clone, Default)]
struct Counts {
    /// Exposures given, and strings refused by each number.
    answers: [u64; 1 + REFUSALS.len()],
}

impl Counts {
    fn named(&self) -> Vec<(String, u64)> {
        let strings = self.answers.iter().sum();
        let mut named = vec![("strings to the exposure".to_string(), strings)];
        named.extend(named_answers(&self.answers));
        named
    }
}

impl AddAssign for Counts {
    fn add_assign(&mut self, other: Counts) {
        add_each(&mut self.answers, &other.answers);
    }
}

/// A string with a violation.
struct Bad {
    number: u64,
    string: Vec<u8>,
    answer: [u32; 5],
    what: String,
}

impl Bad {
    /// What is wrong, in lines. The string goes to the file.
    fn report(&self, exposing: &str, seed: u64, file: &Path) -> String {
        let number = self.number;
        format!(
            "fuzz: exposure {exposing} on string {number} of seed {seed}: {}\nanswer: {:?}\n{}{}",
            self.what,
            self.answer,
            again(&self.string, seed, number),
            saved(file, &self.string)
        )
    }
}

fn again(string: &[u8], seed: u64, number: u64) -> String {
    format!(
        "string of {} bytes\nit is the last string of: harness fuzz {number} {seed}\n",
        string.len()
    )
}

/// Gives the strings of a seed to a judge, with a findings area of enough room, and to the exposure.
/// While a thread waits for an answer, its place in `waiting` has the string's number, else 0.
fn expose_all(
    judge: &Judge,
    exposing: &Exposing,
    strings: u64,
    seed: u64,
    waiting: &[AtomicU64],
) -> Result<Counts, Box<Bad>> {
    spread("strings", strings, |thread, number, counts: &mut Counts| {
        let string = string(seed, number);
        let before = Numbers::new(&mut random_for(seed, number));
        waiting[thread].store(number, Relaxed);
        // A trace is longer than its findings.
        let judged = (judge.call)(&string, &mut vec![0; string.len()]);
        let (returned, kept) = before.after(exposing.call, &string);
        waiting[thread].store(0, Relaxed);
        let answer = returned.answer();
        match violation(&string, judged, &before, &returned, kept) {
            Some(what) => Err(Box::new(Bad {
                number,
                string,
                answer,
                what,
            })),
            None => {
                counts.answers[place_of(answer[0])] += 1;
                Ok(())
            }
        }
    })
}

/// The lines for a string without an answer, which goes to a file.
fn hang_text(exposing: &str, seed: u64, number: u64) -> String {
    let string = string(seed, number);
    format!(
        "fuzz: exposure {exposing} on string {number} of seed {seed}: no answer after {} s\n{}{}",
        LIMIT.as_secs(),
        again(&string, seed, number),
        saved(&target_file(HANG_FILE), &string)
    )
}

/// The lines for standard output, or, for a violation, those for standard error. A call that does
/// not return ends the program.
pub fn command(
    judge: &Judge,
    exposing: &Exposing,
    strings: u64,
    seed: u64,
) -> Result<String, String> {
    let result = watched(
        |waiting| expose_all(judge, exposing, strings, seed, waiting),
        |number| hang_text(exposing.name, seed, number),
    );
    match result {
        Ok(counts) => {
            let text = counted(&counts.named(), strings >= STRINGS)?;
            let name = exposing.name;
            Ok(format!("{text}exposure {name}\nseed {seed}\nbad 0\n"))
        }
        Err(bad) => Err(bad.report(exposing.name, seed, &target_file(BAD_FILE))),
    }
}

#[cfg(test)]
mod tests {
    use super::*;
    use crate::differential::{tests::RIGHT as JUDGE, threads};
    use crate::exposing::tests::{RIGHT, WRONG};
    use reference::random::Random;
    use reference::trace::assemble;

    fn all(exposing: &Exposing, strings: u64, seed: u64) -> Result<Counts, Box<Bad>> {
        let waiting: Vec<AtomicU64> = (0..threads()).map(|_| AtomicU64::new(0)).collect();
        expose_all(&JUDGE, exposing, strings, seed, &waiting)
    }

    #[test]
    fn the_proved_exposure_is_right() {
        let counts = all(&RIGHT, 20_000, 3).ok().unwrap();
        let named = counts.named();
        assert_eq!(named[0], ("strings to the exposure".to_string(), 20_000));
        assert!(counted(&named, true).is_ok(), "{named:?}");
    }

    #[test]
    fn every_wrong_exposure_is_found() {
        for exposing in &WRONG {
            let found = all(exposing, 5_000, 1).err();
            assert!(found.is_some(), "not found: {}", exposing.name);
        }
    }

    #[test]
    fn a_violation_is_reported_and_its_string_saved() {
        let bad = all(&WRONG[1], 5_000, 1).err().unwrap();
        let file = target_file("harness-test-bad-exposure.trace");
        let report = bad.report("wrong", 1, &file);
        let saved = std::fs::read(&file).unwrap();
        std::fs::remove_file(&file).unwrap();
        assert_eq!(saved, string(1, bad.number));
        let again = format!("harness fuzz {} 1\n", bad.number);
        assert!(
            report.contains(": no such answer where the judge gives ") && report.contains(&again),
            "{report}"
        );
    }

    #[test]
    fn changes_beside_the_answer_are_violations() {
        let string = string(1, 1);
        let judged = (JUDGE.call)(&string, &mut vec![0; string.len()]);
        let before = Numbers::new(&mut Random::new(1));
        let (right, kept) = before.after(RIGHT.call, &string);
        assert_eq!(violation(&string, judged, &before, &right, kept), None);
        assert!(violation(&string, judged, &before, &right, false).is_some());
        let other = Numbers::new(&mut Random::new(2));
        assert!(violation(&string, judged, &other, &right, true).is_some());
    }

    #[test]
    fn answers_are_well_formed() {
        let string = assemble(2, &[], &[]);
        let accepted = Answer::Accepted {
            events: 9,
            fences: 4,
            findings: 0,
        };
        let bad = |answer| bad_answer(&string, accepted, answer).is_some();
        for good in [
            [17, 0, 0, 0, 0],
            [0, 0, 1, 0, 1],
            [0, 0, 3, 127, 128],
            [0, 0, 4, 0, 128],
        ] {
            assert!(!bad(good), "{good:?}");
        }
        for wrong in [
            [0, 0, 0, 0, 0],
            [0, 0, 0, 1, 2],
            [0, 0, 1, 2, 2],
            [0, 0, 1, 0, 129],
            [0, 0, 4, 1, 128],
            [0, 0, 5, 0, 128],
            [0, 1, 1, 0, 1],
            [17, 1, 0, 0, 0],
            [17, 0, 1, 0, 1],
            [13, 0, 0, 0, 0],
        ] {
            assert!(bad(wrong), "{wrong:?}");
        }
        let refused = Answer::Refused {
            number: 9,
            record: 3,
        };
        let bad = |answer| bad_answer(&string, refused, answer).is_some();
        assert!(!bad([9, 3, 0, 0, 0]));
        for wrong in [
            [9, 2, 0, 0, 0],
            [8, 3, 0, 0, 0],
            [17, 0, 0, 0, 0],
            [9, 3, 0, 0, 1],
        ] {
            assert!(bad(wrong), "{wrong:?}");
        }
    }
}
