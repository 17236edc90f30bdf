//! `differential`: mean exposures compared with the unrelated ones on random traces.

use crate::differential::{
    add_each, counted, drawn, random_for, saved, spread, target_file, FILE, MAX_RECORDS, TRACES,
};
use crate::no_bytes;
use reference::event::{Event, LINE};
use reference::random::{self, Random, Shape};
use reference::{trace, Range, Record};
use std::hint::black_box;
use std::ops::AddAssign;
use std::path::Path;

/// Gives the mean exposure of a trace. The answer is the refusal's number or 0, the record's number,
/// and quotient, remainder and divisor.
pub type Expose = fn(&[u8], &mut [u32; 5]);

/// A call that gives exposures, and the name that it is reported with.
#[derive(Clone, Copy)]
pub struct Exposing {
    pub name: &'static str,
    pub call: Expose,
}

/// The numbers that a trace can be refused by. No trace is long enough for 10, and there is no
/// findings area for 14; 8 is not given any more.
pub const REFUSALS: [u32; 13] = [1, 2, 3, 4, 5, 6, 7, 9, 18, 11, 12, 13, 17];

/// Every number that this divides has a second trace, of wide stores.
const EVERY: u64 = 20;

/// The unrelated exposure.
fn reference_exposure(trace: &[u8], answer: &mut [u32; 5]) {
    *answer = match reference::exposure(trace) {
        Ok(mean) => {
            let numbers = [mean.quotient, mean.remainder, mean.divisor];
            let [quotient, remainder, divisor] = numbers.map(|number| number as u32);
            [0, 0, quotient, remainder, divisor]
        }
        Err(refusal) => [refusal.number.into(), refusal.record as u32, 0, 0, 0],
    };
}

/// What a call can change: an answer of so many numbers between guards. The arrays stand in this order
/// without gaps.
#[derive(Clone, Debug, PartialEq, Eq)]
#[repr(C)]
pub struct Numbers<const COUNT: usize> {
    before: [u32; 4],
    answer: [u32; COUNT],
    behind: [u32; 4],
}

impl<const COUNT: usize> Numbers<COUNT> {
    /// The guards are random. The answer is one that no call gives.
    pub fn new(random: &mut Random) -> Numbers<COUNT> {
        let mut any = || random.bits() as u32;
        Numbers {
            before: std::array::from_fn(|_| any()),
            answer: [u32::MAX; COUNT],
            behind: std::array::from_fn(|_| any()),
        }
    }

    /// The numbers after a call, and whether the trace is as it was.
    pub fn after(
        &self,
        call: impl FnOnce(&[u8], &mut [u32; COUNT]),
        trace: &[u8],
    ) -> (Numbers<COUNT>, bool) {
        let mut numbers = self.clone();
        let given = black_box(trace.to_vec());
        // The compiler may not take the guards for unchanged.
        call(&given, &mut black_box(&mut numbers).answer);
        (numbers, black_box(given) == trace)
    }

    pub fn answer(&self) -> [u32; COUNT] {
        self.answer
    }

    /// Whether the guards around the answer are those of other numbers.
    pub fn same_guards(&self, other: &Numbers<COUNT>) -> bool {
        (self.before, self.behind) == (other.before, other.behind)
    }
}

/// The traces with this number of a seed: the one that the judges get, and for some numbers one of
/// wide stores.
fn traces(seed: u64, number: u64) -> Vec<Vec<u8>> {
    let mut random = random_for(seed, number);
    let mut traces = vec![drawn(&mut random)];
    if number.is_multiple_of(EVERY) {
        traces.push(wide(&mut random));
    }
    traces
}

/// A trace of stores of any length, with many fences between them and their write-backs, so that the
/// sums are large. One in four gets ranges of no bytes.
fn wide(random: &mut Random) -> Vec<u8> {
    let lines = random.pick(&[1, 2, 5, 32, 63, 64, 64]);
    let window = lines * LINE as u16;
    let shape = Shape {
        lines,
        longest: window,
        ..random::any_shape(random)
    };
    let mut events = Vec::new();
    for _ in 0..1 + random.below(4) {
        for _ in 0..1 + random.below(3) {
            events.push(Event::Store(random::range(random, &shape)));
            add_fences(random, &mut events);
        }
        let any = random::range(random, &shape);
        let written = random.pick(&[any, Range::new(0, window)]);
        events.push(Event::WriteBack(written));
        add_fences(random, &mut events);
    }
    events.truncate(MAX_RECORDS);
    let mut with_site = |event| Record {
        event,
        site: random.bits() as u16,
    };
    let records: Vec<Record> = events.into_iter().map(&mut with_site).collect();
    let mut trace = trace::write(lines, &[], &records);
    if random.chance(1, 4) {
        no_bytes::put_some(random, &mut trace);
    }
    trace
}

fn add_fences(random: &mut Random, events: &mut Vec<Event>) {
    let count = random.pick(&[0, 1, 1, 2, 7, 60, 300, 2_000]);
    events.extend(vec![Event::Fence; count]);
}

/// What the traces covered, by the answers of the unrelated checker.
#[derive(Clone, Default)]
struct Counts {
    /// Exposures given, and traces refused by each number.
    answers: [u64; 1 + REFUSALS.len()],
    /// Of the exposures given: those with a remainder, those with a sum of 65,536 or more, and those
    /// of every byte of 64 lines.
    given: [u64; 3],
    /// Exposures given of traces with a range of no bytes.
    no_bytes: u64,
    /// Bytes whose interval is closed.
    bytes: u64,
}

impl Counts {
    fn add(&mut self, trace: &[u8], answer: [u32; 5]) {
        self.answers[place_of(answer[0])] += 1;
        self.no_bytes += u64::from(answer[0] == 0 && no_bytes::any_in_trace(trace));
        let [_, _, quotient, remainder, divisor] = answer.map(u64::from);
        let sum = quotient * divisor + remainder;
        let given = [remainder > 0, sum >= 65_536, divisor == 4_096];
        add_each(&mut self.given, &given.map(u64::from));
        self.bytes += divisor;
    }

    fn named(&self) -> Vec<(String, u64)> {
        let mut named = vec![(
            "traces to the exposure".to_string(),
            self.answers.iter().sum(),
        )];
        named.extend(named_answers(&self.answers));
        let given = [
            "exposures with a remainder",
            "exposures with a sum of 65,536 or more",
            "exposures of all bytes of 64 lines",
        ];
        let given = given.iter().zip(self.given);
        named.extend(given.map(|(name, count)| (name.to_string(), count)));
        let no_bytes = "exposures of traces with a range of no bytes";
        named.push((no_bytes.to_string(), self.no_bytes));
        named.push(("bytes closed".to_string(), self.bytes));
        named
    }
}

/// The place of an answer among the counts: 0 for an exposure, else that of the refusal.
pub fn place_of(number: u32) -> usize {
    let place = REFUSALS.iter().position(|&refusal| refusal == number);
    place.map_or(0, |place| place + 1)
}

pub fn named_answers(answers: &[u64; 1 + REFUSALS.len()]) -> Vec<(String, u64)> {
    let mut named = vec![("exposures given".to_string(), answers[0])];
    let refused = REFUSALS.iter().zip(&answers[1..]);
    named.extend(refused.map(|(number, &count)| (format!("exposure refused by {number}"), count)));
    named
}

impl AddAssign for Counts {
    fn add_assign(&mut self, other: Counts) {
        add_each(&mut self.answers, &other.answers);
        add_each(&mut self.given, &other.given);
        self.no_bytes += other.no_bytes;
        self.bytes += other.bytes;
    }
}

/// A trace whose exposure is another one.
struct Difference {
    exposing: &'static str,
    number: u64,
    trace: Vec<u8>,
    /// Whether the call left it as it was.
    kept: bool,
    expected: Numbers<5>,
    returned: Numbers<5>,
}

impl Difference {
    /// What differs, in lines. The trace goes to the file.
    fn report(&self, seed: u64, file: &Path) -> String {
        let (exposing, number) = (self.exposing, self.number);
        let kept = match self.kept {
            true => "the trace is as it was",
            false => "the trace changed",
        };
        format!(
            "differential: exposure {exposing} differs from reference on trace {number} of seed {seed}\n\
             reference: {:?}\n{exposing}: {:?}\n{kept}\ntrace of {} bytes\n\
             it is among the last traces of: harness differential {number} {seed}\n{}",
            self.expected,
            self.returned,
            self.trace.len(),
            saved(file, &self.trace)
        )
    }
}

/// Compares every call with the unrelated exposure on the traces of a seed.
fn compare(calls: &[Exposing], numbers: u64, seed: u64) -> Result<Counts, Box<Difference>> {
    spread(
        "traces to the exposure",
        numbers,
        |_, number, counts: &mut Counts| {
            for trace in traces(seed, number) {
                let before = Numbers::new(&mut random_for(seed, number));
                let (expected, _) = before.after(reference_exposure, &trace);
                counts.add(&trace, expected.answer);
                for exposing in calls {
                    let (returned, kept) = before.after(exposing.call, &trace);
                    if returned != expected || !kept {
                        return Err(Box::new(Difference {
                            exposing: exposing.name,
                            number,
                            trace,
                            kept,
                            expected,
                            returned,
                        }));
                    }
                }
            }
            Ok(())
        },
    )
}

/// The lines for standard output, or, for a failure, those for standard error.
pub fn command(calls: &[Exposing], numbers: u64, seed: u64) -> Result<String, String> {
    match compare(calls, numbers, seed) {
        Ok(counts) => {
            let text = counted(&counts.named(), numbers >= TRACES)?;
            let names: Vec<_> = calls.iter().map(|exposing| exposing.name).collect();
            let names = names.join(", ");
            Ok(format!(
                "{text}exposures compared with reference: {names}\nseed {seed}\ndiffer 0\n"
            ))
        }
        Err(difference) => Err(difference.report(seed, &target_file(FILE))),
    }
}

#[cfg(test)]
pub mod tests {
    use super::*;
    use crate::differential::given;
    use crate::exposure::exposure;
    use crate::no_bytes::tests::{
        back_to_size, beyond_size, changed, hidden, replaced, with_8, with_byte,
    };
    use crate::plain;
    use crate::shared::tests::{
        refuse_before_9, refuse_empty_inside, refuse_touching, take_last_byte, take_shared,
    };
    use reference::direct::Run;
    use reference::{singly, Epochs};

    pub const RIGHT: Exposing = Exposing {
        name: "right",
        call: exposure,
    };

    /// Calls that answer what no call may, which needs no model to be seen.
    pub const WRONG: [Exposing; 15] = [
        wrong("exchanges quotient and remainder", |trace, answer| {
            exposure(trace, answer);
            answer.swap(2, 3);
        }),
        wrong("gives no 17", |trace, answer| {
            exposure(trace, answer);
            if answer[0] == 17 {
                *answer = [0; 5];
            }
        }),
        wrong("gives 17 at a record", |trace, answer| {
            exposure(trace, answer);
            answer[1] += u32::from(answer[0] == 17);
        }),
        wrong("gives numbers with a refusal", |trace, answer| {
            exposure(trace, answer);
            answer[4] = answer[4].max(1);
        }),
        wrong("gives 17 before 13", |trace, answer| {
            exposure(trace, answer);
            if answer[0] == 13 {
                answer[0] = 17;
            }
        }),
        wrong("gives 14", |trace, answer| {
            exposure(trace, answer);
            if answer[0] == 17 {
                answer[0] = 14;
            }
        }),
        wrong("still gives 8", |trace, answer| {
            exposure(&hidden(trace), answer);
            answer[0] = with_8(trace, answer[0], answer[1]);
        }),
        wrong("refuses no bytes at the window's size", |trace, answer| {
            exposure(&replaced(trace, beyond_size), answer);
        }),
        wrong(
            "takes no bytes beyond the window's size",
            |trace, answer| {
                exposure(&replaced(trace, back_to_size), answer);
            },
        ),
        wrong("takes ranges that share a byte", |trace, answer| {
            exposure(&changed(trace, take_shared), answer);
        }),
        wrong("takes ranges that share a last byte", |trace, answer| {
            exposure(&changed(trace, take_last_byte), answer);
        }),
        wrong("refuses ranges that touch by 18", |trace, answer| {
            exposure(&changed(trace, refuse_touching), answer);
        }),
        wrong("refuses no bytes inside by 18", |trace, answer| {
            exposure(&changed(trace, refuse_empty_inside), answer);
        }),
        wrong("gives 18 before 9", |trace, answer| {
            exposure(&changed(trace, refuse_before_9), answer);
        }),
        wrong("gives 18 with a number from 0", |trace, answer| {
            exposure(trace, answer);
            answer[1] -= u32::from(answer[0] == 18);
        }),
    ];

    /// Calls with another sum or another divisor.
    const WRONG_MEANS: [Exposing; 11] = [
        wrong("counts open bytes", |trace, answer| {
            remade(trace, answer, |run, seen| {
                let open = seen.iter().filter_map(|byte| match byte.epochs {
                    Epochs::Open(since) => Some(run.fences - since),
                    _ => None,
                });
                mean(closed(seen).chain(open))
            });
        }),
        wrong("divides by the bytes stored to", |trace, answer| {
            remade(trace, answer, |_, seen| {
                let stored = |byte: &&Seen| byte.epochs != Epochs::None;
                divided(closed(seen).sum(), seen.iter().filter(stored).count())
            });
        }),
        wrong("counts bytes never stored to", |trace, answer| {
            remade(trace, answer, |_, seen| {
                let never = seen.iter().filter(|byte| byte.epochs == Epochs::None);
                mean(closed(seen).chain(never.map(|_| 0)))
            });
        }),
        wrong("divides by the window's size", |trace, answer| {
            remade(trace, answer, |_, seen| {
                divided(closed(seen).sum(), seen.len())
            });
        }),
        wrong("has the sum modulo 65,536", |trace, answer| {
            remade(trace, answer, |_, seen| {
                divided(closed(seen).sum::<usize>() % 65_536, closed(seen).count())
            });
        }),
        wrong("counts an interval of an earlier store", |trace, answer| {
            remade(trace, answer, |_, seen| {
                let open = seen
                    .iter()
                    .filter(|byte| matches!(byte.epochs, Epochs::Open(_)));
                mean(closed(seen).chain(open.filter_map(|byte| byte.earlier)))
            });
        }),
        wrong("adds an earlier store's interval", |trace, answer| {
            remade(trace, answer, |_, seen| {
                divided(seen.iter().map(|byte| byte.all).sum(), closed(seen).count())
            });
        }),
        wrong(
            "closes bytes stored after the write-back",
            |trace, answer| {
                exposure(trace, answer);
                if matches!(answer[0], 0 | 17) {
                    *answer = mean(closed_by_lines(trace).into_iter().flatten());
                }
            },
        ),
        wrong("opens the byte of a store of no bytes", |trace, answer| {
            exposure(&with_byte(trace, Event::STORE), answer);
        }),
        wrong(
            "closes the line of a write-back of no bytes",
            |trace, answer| {
                exposure(&with_byte(trace, Event::WRITE_BACK), answer);
            },
        ),
        wrong("rounds up", |trace, answer| {
            exposure(trace, answer);
            if answer[3] > 0 {
                answer[2] += 1;
                answer[3] = 0;
            }
        }),
    ];

    const fn wrong(name: &'static str, call: Expose) -> Exposing {
        Exposing { name, call }
    }

    /// What was seen of a byte of the window up to the end of a trace.
    #[derive(Clone, Copy)]
    struct Seen {
        epochs: Epochs,
        /// The difference of the last interval that was closed, of whichever store.
        earlier: Option<usize>,
        /// The sum of the differences of all intervals that were closed.
        all: usize,
    }

    /// The run after a trace, as far as it is needed here.
    struct Ended {
        fences: usize,
    }

    /// What is seen of every byte, over the events of a trace that the judge accepts.
    fn seen(bytes: &[u8]) -> (Ended, Vec<Seen>) {
        let body = trace::open(bytes).expect("an accepted trace");
        let (mut run, _) = singly::fresh::<Run>(body.lines);
        let never = Seen {
            epochs: Epochs::None,
            earlier: None,
            all: 0,
        };
        let mut seen = vec![never; usize::from(body.lines) * LINE];
        let (mut fences, mut written) = (0, false);
        for record in body.record_bytes() {
            let record = trace::read(record).expect("an accepted trace");
            singly::give(&mut run, &record).expect("an accepted trace");
            match record.event {
                Event::WriteBack(_) => written = true,
                Event::Fence => {
                    fences += 1;
                    if std::mem::take(&mut written) {
                        see_closed(&run, &mut seen);
                    }
                }
                _ => {}
            }
        }
        for (address, byte) in seen.iter_mut().enumerate() {
            byte.epochs = epochs(&run, address);
        }
        (Ended { fences }, seen)
    }

    fn epochs(run: &Run, address: usize) -> Epochs {
        let interval = singly::ask(run, address).expect("a byte of the window");
        interval.epochs()
    }

    /// Notes the intervals that are closed now and were not before.
    fn see_closed(run: &Run, seen: &mut [Seen]) {
        for (address, byte) in seen.iter_mut().enumerate() {
            let epochs = epochs(run, address);
            if let (Epochs::Closed(from, to), true) = (epochs, epochs != byte.epochs) {
                byte.earlier = Some(to - from);
                byte.all += to - from;
            }
            byte.epochs = epochs;
        }
    }

    /// The differences of the bytes if a fence closes every open byte of a line that was written back
    /// since the fence before.
    fn closed_by_lines(bytes: &[u8]) -> Vec<Option<usize>> {
        let body = trace::open(bytes).expect("an accepted trace");
        let mut opened = vec![0; usize::from(body.lines) * LINE];
        let mut differences = vec![None; opened.len()];
        let mut is_open = vec![false; opened.len()];
        let mut written = vec![false; usize::from(body.lines)];
        let mut fences = 0;
        for record in body.record_bytes() {
            match trace::read(record).expect("an accepted trace").event {
                Event::Store(a) => {
                    opened[a.bytes()].fill(fences);
                    is_open[a.bytes()].fill(true);
                    differences[a.bytes()].fill(None);
                }
                Event::WriteBack(a) => written[a.lines()].fill(true),
                Event::Fence => {
                    fences += 1;
                    for byte in 0..opened.len() {
                        if written[byte / LINE] && std::mem::take(&mut is_open[byte]) {
                            differences[byte] = Some(fences - opened[byte]);
                        }
                    }
                    written.fill(false);
                }
                _ => {}
            }
        }
        differences
    }

    /// The differences of the bytes whose interval is closed.
    fn closed(seen: &[Seen]) -> impl Iterator<Item = usize> + '_ {
        seen.iter().filter_map(|byte| match byte.epochs {
            Epochs::Closed(from, to) => Some(to - from),
            _ => None,
        })
    }

    fn mean(differences: impl Iterator<Item = usize>) -> [u32; 5] {
        let (sum, count) = differences.fold((0, 0), |(sum, count), more| (sum + more, count + 1));
        divided(sum, count)
    }

    fn divided(sum: usize, count: usize) -> [u32; 5] {
        match count {
            0 => [17, 0, 0, 0, 0],
            _ => [0, 0, sum / count, sum % count, count].map(|number| number as u32),
        }
    }

    /// Gives the answer that is made from what is seen of the bytes, if the judge accepts the trace.
    fn remade(trace: &[u8], answer: &mut [u32; 5], made: fn(&Ended, &[Seen]) -> [u32; 5]) {
        exposure(trace, answer);
        if matches!(answer[0], 0 | 17) {
            let (run, seen) = seen(trace);
            *answer = made(&run, &seen);
        }
    }

    fn difference(calls: &[Exposing]) -> Box<Difference> {
        let found = compare(calls, 3_000, 1).err();
        found.unwrap_or_else(|| panic!("no difference found: {}", calls[0].name))
    }

    #[test]
    fn the_proved_and_the_plain_exposure_agree() {
        let plain = wrong("plain", plain::exposure);
        let counts = compare(&[RIGHT, plain], 5_000, 5).ok().unwrap();
        let named = counts.named();
        assert_eq!(named[0], ("traces to the exposure".to_string(), 5_250));
        assert!(counted(&named, true).is_ok(), "{named:?}");
    }

    #[test]
    fn every_wrong_exposure_is_found() {
        for exposing in WRONG.iter().chain(&WRONG_MEANS) {
            let found = difference(&[RIGHT, *exposing]);
            assert_eq!(found.exposing, exposing.name);
            let again = difference(&[*exposing]);
            assert_eq!(found.number, again.number, "{}", exposing.name);
        }
    }

    /// With the right numbers, the exposures that are remade are right.
    #[test]
    fn only_what_is_named_is_wrong() {
        let call: Expose = |trace, answer| remade(trace, answer, |_, seen| mean(closed(seen)));
        assert!(compare(&[wrong("remade", call)], 500, 3).is_ok());
    }

    #[test]
    fn a_difference_is_reported_and_its_trace_saved() {
        let found = difference(&[WRONG[0]]);
        let file = target_file("harness-test-exposure.trace");
        let report = found.report(1, &file);
        let saved = std::fs::read(&file).unwrap();
        std::fs::remove_file(&file).unwrap();
        assert!(traces(1, found.number).contains(&saved));
        for part in [
            format!("on trace {} of seed 1\n", found.number),
            format!("{:?}", found.expected),
            format!("{:?}", found.returned),
            format!("harness differential {} 1\n", found.number),
            "harness-test-exposure.trace".to_string(),
        ] {
            assert!(report.contains(&part), "{part}: {report}");
        }
    }

    #[test]
    fn guards_and_traces_are_compared() {
        let before = Numbers::new(&mut Random::new(1));
        for change in [
            |numbers: &mut Numbers<5>| numbers.before[3] ^= 1,
            |numbers: &mut Numbers<5>| numbers.behind[0] ^= 1,
            |numbers: &mut Numbers<5>| numbers.answer[4] ^= 1,
        ] {
            let mut changed = before.clone();
            change(&mut changed);
            assert!(changed != before);
        }
        let trace = wide(&mut Random::new(1));
        assert!(before.after(exposure, &trace).1);
    }

    #[test]
    fn traces_follow_from_seed_and_number() {
        let at_20 = traces(1, 20);
        assert_eq!(at_20[0], given(1, 20).trace);
        assert!(at_20 == traces(1, 20) && at_20 != traces(2, 20));
        assert_eq!((traces(1, 19).len(), at_20.len()), (1, 2));
    }
}
