//! `fuzz`: an interval on arbitrary strings of bytes. What it answers is checked with the judge's answer
//! and with the records that it names, and without a model.

use crate::asking::{after, named_answers, some_byte, sort_of, Asking, SORTS};
use crate::differential::{add_each, counted, random_for, saved, spread, target_file, Judge};
use crate::exposing::Numbers;
use crate::fuzz::{string, watched, BAD_FILE, HANG_FILE, LIMIT, STRINGS};
use crate::interval::COUNT;
use crate::judge::Answer;
use reference::event::{Event, LINE};
use reference::trace;
use reference::Record;
use std::ops::AddAssign;
use std::path::Path;
use std::sync::atomic::{AtomicU64, Ordering::Relaxed};

/// What a call did that no call may do, if the judge gives this answer to the string.
fn violation(
    (string, byte): (&[u8], u16),
    judged: Answer,
    before: &Numbers<COUNT>,
    returned: &Numbers<COUNT>,
    kept: bool,
) -> Option<String> {
    if !kept {
        return Some("the string changed".to_string());
    }
    if !returned.same_guards(before) {
        return Some("a number beside the answer changed".to_string());
    }
    bad_answer(string, byte, judged, &returned.answer())
}

/// An answer that no call gives beside the judge's.
fn bad_answer(string: &[u8], byte: u16, judged: Answer, answer: &[u32; COUNT]) -> Option<String> {
    let good = match judged {
        Answer::Refused { number, record } => *answer == refused(number, record),
        Answer::Accepted { .. } => {
            let records = Records::of(string);
            if usize::from(byte) < records.window {
                records.allow(usize::from(byte), answer)
            } else {
                *answer == refused(9, 0)
            }
        }
    };
    (!good).then(|| format!("no such answer where the judge gives {judged:?}"))
}

fn refused(number: u32, record: u32) -> [u32; COUNT] {
    let mut answer = [0; COUNT];
    [answer[0], answer[1]] = [number, record];
    answer
}

/// The records of an accepted string.
struct Records {
    window: usize,
    records: Vec<Record>,
}

impl Records {
    fn of(string: &[u8]) -> Records {
        let body = trace::open(string).expect("an accepted string");
        let read = |bytes| trace::read(bytes).expect("an accepted string");
        Records {
            window: usize::from(body.lines) * LINE,
            records: body.record_bytes().map(read).collect(),
        }
    }

    /// Whether it can be the interval of a byte: the records named are of the kinds that they have to
    /// be, in this order, with these sites and epochs, and what the state lacks is 0.
    fn allow(&self, byte: usize, answer: &[u32; COUNT]) -> bool {
        let [0, 0, state, opened, closed, store, back, fence, sites @ ..] = *answer else {
            return false;
        };
        let named = match state {
            0 => return *answer == [0; COUNT],
            1 => fence == 0,
            2 => back != 0 && fence != 0,
            _ => false,
        };
        let stored = self.is(
            store,
            |event| matches!(event, Event::Store(a) if a.covers(byte)),
        );
        let written = |event| matches!(event, Event::WriteBack(a) if a.touches(byte / LINE));
        let written = back == 0 || store < back && self.is(back, written);
        let fenced = fence == 0 || back < fence && self.is(fence, |event| event == Event::Fence);
        named
            && stored
            && written
            && fenced
            && sites == [store, back, fence].map(|event| self.site(event))
            && [opened, closed] == [store, fence].map(|event| self.epoch(event))
    }

    fn record(&self, event: u32) -> Option<&Record> {
        (event as usize)
            .checked_sub(1)
            .and_then(|at| self.records.get(at))
    }

    fn is(&self, event: u32, kind: impl Fn(Event) -> bool) -> bool {
        self.record(event).is_some_and(|record| kind(record.event))
    }

    /// The site of an event, 0 for none.
    fn site(&self, event: u32) -> u32 {
        self.record(event)
            .map_or(0, |record| u32::from(record.site))
    }

    /// The fences by an event, 0 for none.
    fn epoch(&self, event: u32) -> u32 {
        let happened = self.records.iter().take(event as usize);
        happened
            .filter(|record| record.event == Event::Fence)
            .count() as u32
    }
}

#[derive(Clone, Default)]
struct Counts {
    answers: [u64; SORTS],
}

impl Counts {
    fn named(&self) -> Vec<(String, u64)> {
        let strings = self.answers.iter().sum();
        let mut named = vec![("strings to the interval".to_string(), strings)];
        named.extend(named_answers(&self.answers));
        named
    }
}

impl AddAssign for Counts {
    fn add_assign(&mut self, other: Counts) {
        add_each(&mut self.answers, &other.answers);
    }
}

/// A string with a violation.
struct Bad {
    number: u64,
    string: Vec<u8>,
    byte: u16,
    answer: [u32; COUNT],
    what: String,
}

impl Bad {
    /// What is wrong, in lines. The string goes to the file.
    fn report(&self, asking: &str, seed: u64, file: &Path) -> String {
        let (number, byte) = (self.number, self.byte);
        format!(
            "fuzz: interval {asking} of byte {byte} on string {number} of seed {seed}: {}\nanswer: {:?}\n{}{}",
            self.what,
            self.answer,
            again(&self.string, seed, number),
            saved(file, &self.string)
        )
    }
}

fn again(string: &[u8], seed: u64, number: u64) -> String {
    format!(
        "string of {} bytes\nit is the last string of: harness fuzz {number} {seed}\n",
        string.len()
    )
}

/// What is asked with this number of a seed: a string, a byte, and the numbers before the call.
fn asked(seed: u64, number: u64) -> (Vec<u8>, u16, Numbers<COUNT>) {
    let string = string(seed, number);
    let mut random = random_for(seed, number);
    let before = Numbers::new(&mut random);
    let byte = some_byte(&mut random, &string);
    (string, byte, before)
}

/// Gives the strings of a seed to a judge, with a findings area of enough room, and to the interval.
/// While a thread waits for an answer, its place in `waiting` has the string's number, else 0.
fn ask_all(
    judge: &Judge,
    asking: &Asking,
    strings: u64,
    seed: u64,
    waiting: &[AtomicU64],
) -> Result<Counts, Box<Bad>> {
    spread("strings", strings, |thread, number, counts: &mut Counts| {
        let (string, byte, before) = asked(seed, number);
        waiting[thread].store(number, Relaxed);
        // A trace is longer than its findings.
        let judged = (judge.call)(&string, &mut vec![0; string.len()]);
        let (returned, kept) = after(&before, asking.call, &string, byte);
        waiting[thread].store(0, Relaxed);
        let answer = returned.answer();
        match violation((&string, byte), judged, &before, &returned, kept) {
            Some(what) => Err(Box::new(Bad {
                number,
                string,
                byte,
                answer,
                what,
            })),
            None => {
                counts.answers[sort_of(&answer)] += 1;
                Ok(())
            }
        }
    })
}

/// The lines for a string without an answer, which goes to a file.
fn hang_text(asking: &str, seed: u64, number: u64) -> String {
    let (string, byte, _) = asked(seed, number);
    format!(
        "fuzz: interval {asking} of byte {byte} on string {number} of seed {seed}: no answer after {} s\n{}{}",
        LIMIT.as_secs(),
        again(&string, seed, number),
        saved(&target_file(HANG_FILE), &string)
    )
}

/// The lines for standard output, or, for a violation, those for standard error. A call that does
/// not return ends the program.
pub fn command(judge: &Judge, asking: &Asking, strings: u64, seed: u64) -> Result<String, String> {
    let result = watched(
        |waiting| ask_all(judge, asking, strings, seed, waiting),
        |number| hang_text(asking.name, seed, number),
    );
    match result {
        Ok(counts) => {
            let text = counted(&counts.named(), strings >= STRINGS)?;
            let name = asking.name;
            Ok(format!("{text}interval {name}\nseed {seed}\nbad 0\n"))
        }
        Err(bad) => Err(bad.report(asking.name, seed, &target_file(BAD_FILE))),
    }
}

#[cfg(test)]
mod tests {
    use super::*;
    use crate::asking::tests::{wrong_without_model, RIGHT};
    use crate::differential::{tests::RIGHT as JUDGE, threads};
    use reference::random::Random;
    use reference::Range;

    fn all(asking: &Asking, strings: u64, seed: u64) -> Result<Counts, Box<Bad>> {
        let waiting: Vec<AtomicU64> = (0..threads()).map(|_| AtomicU64::new(0)).collect();
        ask_all(&JUDGE, asking, strings, seed, &waiting)
    }

    #[test]
    fn the_proved_interval_is_right() {
        let counts = all(&RIGHT, 20_000, 3).ok().unwrap();
        let named = counts.named();
        assert_eq!(named[0], ("strings to the interval".to_string(), 20_000));
        assert!(counted(&named, true).is_ok(), "{named:?}");
    }

    #[test]
    fn every_wrong_interval_is_found() {
        for asking in wrong_without_model() {
            let found = all(asking, 5_000, 1).err();
            assert!(found.is_some(), "not found: {}", asking.name);
        }
    }

    #[test]
    fn a_violation_is_reported_and_its_string_saved() {
        let wrong = wrong_without_model().next().unwrap();
        let bad = all(wrong, 5_000, 1).err().unwrap();
        let file = target_file("harness-test-bad-interval.trace");
        let report = bad.report("wrong", 1, &file);
        let saved = std::fs::read(&file).unwrap();
        std::fs::remove_file(&file).unwrap();
        assert_eq!(saved, string(1, bad.number));
        let again = format!("harness fuzz {} 1\n", bad.number);
        assert!(
            report.contains(": no such answer where the judge gives ") && report.contains(&again),
            "{report}"
        );
    }

    #[test]
    fn changes_beside_the_answer_are_violations() {
        let (string, byte, before) = asked(1, 1);
        let judged = (JUDGE.call)(&string, &mut vec![0; string.len()]);
        let (right, kept) = after(&before, RIGHT.call, &string, byte);
        let of = (&string[..], byte);
        assert_eq!(violation(of, judged, &before, &right, kept), None);
        assert!(violation(of, judged, &before, &right, false).is_some());
        let other = Numbers::new(&mut Random::new(2));
        assert!(violation(of, judged, &other, &right, true).is_some());
    }

    #[test]
    fn answers_are_well_formed() {
        let (store, other) = (Range::new(0, 8), Range::new(64, 8));
        let events = [
            Event::Fence,
            Event::Store(store),
            Event::WriteBack(other),
            Event::WriteBack(store),
            Event::Fence,
        ];
        let sited = events.into_iter().zip(21..);
        let records: Vec<Record> = sited.map(|(event, site)| Record { event, site }).collect();
        let string = trace::write(2, &[], &records);
        let accepted = Answer::Accepted {
            events: 5,
            fences: 2,
            findings: 0,
        };
        let bad = |byte, answer| bad_answer(&string, byte, accepted, &answer).is_some();
        for (byte, good) in [
            (0, [0, 0, 2, 1, 2, 2, 4, 5, 22, 24, 25]),
            (7, [0, 0, 1, 1, 0, 2, 4, 0, 22, 24, 0]),
            (7, [0, 0, 1, 1, 0, 2, 0, 0, 22, 0, 0]),
            (8, [0; COUNT]),
            (128, refused(9, 0)),
            (65_535, refused(9, 0)),
        ] {
            assert!(!bad(byte, good), "{good:?}");
        }
        for wrong in [
            [0, 1, 2, 1, 2, 2, 4, 5, 22, 24, 25],
            [0, 0, 0, 1, 2, 2, 4, 5, 22, 24, 25],
            [0, 0, 1, 1, 2, 2, 4, 5, 22, 24, 25],
            [0, 0, 3, 1, 2, 2, 4, 5, 22, 24, 25],
            [0, 0, 2, 0, 2, 2, 4, 5, 22, 24, 25],
            [0, 0, 2, 1, 1, 2, 4, 5, 22, 24, 25],
            [0, 0, 2, 1, 2, 2, 3, 5, 22, 23, 25],
            [0, 0, 2, 1, 1, 2, 4, 1, 22, 24, 21],
            [0, 0, 2, 1, 0, 2, 4, 0, 22, 24, 0],
            [0, 0, 2, 1, 2, 2, 0, 5, 22, 0, 25],
            [0, 0, 2, 1, 2, 4, 2, 5, 24, 22, 25],
            [0, 0, 2, 1, 2, 2, 4, 5, 22, 24, 24],
            [0, 0, 1, 2, 0, 6, 0, 0, 0, 0, 0],
            [0, 0, 1, 0, 0, 0, 0, 0, 0, 0, 0],
            refused(9, 0),
            refused(13, 0),
        ] {
            assert!(bad(0, wrong), "{wrong:?}");
        }
        assert!(bad(128, [0; COUNT]) && bad(128, refused(9, 1)));
        let judged = Answer::Refused {
            number: 9,
            record: 3,
        };
        let bad = |answer| bad_answer(&string, 0, judged, &answer).is_some();
        assert!(!bad(refused(9, 3)));
        let with_number = [9, 3, 0, 0, 0, 0, 0, 0, 0, 0, 1];
        for wrong in [refused(9, 0), refused(8, 3), [0; COUNT], with_number] {
            assert!(bad(wrong), "{wrong:?}");
        }
    }
}
