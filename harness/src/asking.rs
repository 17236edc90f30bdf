//! `differential`: persist intervals compared with the unrelated ones, of some bytes of random traces and
//! of every byte after every event of small ones.

use crate::differential::{
    add_each, counted, drawn, random_for, saved, spread, target_file, FILE, TRACES,
};
use crate::exposing::Numbers;
use crate::interval::COUNT;
use crate::no_bytes;
use reference::event::{Event, Range, LINE};
use reference::random::{self, Random};
use reference::trace::{self, Body, RECORD};
use reference::{Epochs, Record};
use std::ops::AddAssign;
use std::path::Path;

/// Gives the persist interval of a byte after a trace, in the numbers that `interval::COUNT` has.
pub type Ask = fn(&[u8], u16, &mut [u32; COUNT]);

/// A call that gives intervals, and the name that it is reported with.
#[derive(Clone, Copy)]
pub struct Asking {
    pub name: &'static str,
    pub call: Ask,
}

/// The numbers that a trace can be refused by. No trace is long enough for 10, and there is no findings
/// area for 14; 8 is not given any more.
const REFUSALS: [u32; 12] = [1, 2, 3, 4, 5, 6, 7, 9, 18, 11, 12, 13];

/// How many bytes of a trace of any sort are asked.
const BYTES: usize = 3;

/// Every number that this divides has a small trace too, asked after every event.
const EVERY: u64 = 200;

/// The events of the lists that are all asked, on two lines.
const LETTERS: [Event; 7] = [
    Event::Store(Range::new(60, 8)),
    Event::Store(Range::new(62, 2)),
    Event::Store(Range::new(64, 1)),
    Event::WriteBack(Range::new(60, 8)),
    Event::WriteBack(Range::new(63, 1)),
    Event::WriteBack(Range::new(64, 1)),
    Event::Fence,
];

/// The most events of these lists.
const MOST_LETTERS: u32 = 5;

/// The unrelated interval.
pub fn reference_interval(trace: &[u8], byte: u16, answer: &mut [u32; COUNT]) {
    *answer = [0; COUNT];
    match reference::interval(trace, usize::from(byte)) {
        Ok(asked) => {
            let (state, opened, closed) = match asked.interval.epochs() {
                Epochs::None => (0, 0, 0),
                Epochs::Open(since) => (1, since, 0),
                Epochs::Closed(from, to) => (2, from, to),
            };
            let [store, back, fence] = asked.interval.events();
            let numbers = [state, opened, closed, store, back, fence];
            answer[2..8].copy_from_slice(&numbers.map(|number| number as u32));
            answer[8..].copy_from_slice(&asked.sites.map(u32::from));
        }
        Err(refusal) => {
            answer[0] = u32::from(refusal.number);
            answer[1] = refusal.record as u32;
        }
    }
}

/// A byte to ask a trace for: mostly one of a store, also at the edges of lines and of the window.
pub fn some_byte(random: &mut Random, trace: &[u8]) -> u16 {
    let Ok(body) = trace::open(trace) else {
        return random.bits() as u16;
    };
    let window = window(&body);
    let stored = stored_byte(random, &body);
    match random.below(8) {
        0 => random.pick(&[0, 63, 64, window - 1, window, window + 1, 65_535]) as u16,
        1 => random.below(window) as u16,
        _ => stored.unwrap_or(random.below(window) as u16),
    }
}

/// A byte of one of the stores, of the first one from any record on, if there is one.
fn stored_byte(random: &mut Random, body: &Body) -> Option<u16> {
    let any = random.below(body.count().max(1));
    let turned = body.record_bytes().skip(any).chain(body.record_bytes());
    let mut stores = turned.filter_map(|record| match trace::read(record).ok()?.event {
        Event::Store(a) if a.has_bytes() => Some(a),
        _ => None,
    });
    let store = stores.next()?;
    let byte = usize::from(store.address) + random.below(usize::from(store.length));
    Some(byte as u16)
}

fn window(body: &Body) -> usize {
    usize::from(body.lines) * LINE
}

/// A trace, and the bytes that are asked of it.
struct Asked {
    trace: Vec<u8>,
    bytes: Vec<u16>,
}

impl Asked {
    /// Every byte of the window, and two behind it.
    fn every_byte(lines: u16, records: &[[u8; RECORD]]) -> Asked {
        Asked {
            trace: trace::assemble(lines, &[], records),
            bytes: (0..lines * LINE as u16 + 2).collect(),
        }
    }
}

/// What is asked with this number of a seed: some bytes of the trace that the judges get; with a low
/// number every byte after a list of few events; and with some every byte after each event of a small
/// trace.
fn asked(seed: u64, number: u64) -> Vec<Asked> {
    let mut random = random_for(seed, number);
    let trace = drawn(&mut random);
    let bytes = (0..BYTES).map(|_| some_byte(&mut random, &trace));
    let bytes = bytes.collect();
    let mut asked = vec![Asked { trace, bytes }];
    asked.extend(list(&mut random, number));
    if number.is_multiple_of(EVERY) {
        asked.extend(after_each_event(&mut random));
    }
    asked
}

/// The list with this number from 1, shorter ones first, if there is one.
fn list(random: &mut Random, number: u64) -> Option<Asked> {
    let letters = LETTERS.len() as u64;
    let mut place = number - 1;
    let mut lengths = 0..=MOST_LETTERS;
    let length = lengths.find(|&length| {
        let here = place < letters.pow(length);
        place -= if here { 0 } else { letters.pow(length) };
        here
    })?;
    let mut record = |at| {
        let event = LETTERS[(place / letters.pow(at) % letters) as usize];
        let site = random.bits() as u16;
        trace::encode(&Record { event, site })
    };
    let records: Vec<_> = (0..length).map(&mut record).collect();
    Some(Asked::every_byte(2, &records))
}

/// A small trace up to each of its events, none of them to all, with the ends that it needs there.
fn after_each_event(random: &mut Random) -> Vec<Asked> {
    let shape = random::small_shape(random);
    let records = random::events(random, &shape);
    let end = trace::encode(&Record {
        event: Event::End,
        site: random.bits() as u16,
    });
    let records: Vec<_> = records.iter().map(trace::encode).collect();
    let up_to = |count: usize| {
        let first = &records[..count];
        let of_kind = |kind| first.iter().filter(|record| record[0] == kind).count();
        let open = of_kind(Event::BEGIN) - of_kind(Event::END);
        Asked::every_byte(shape.lines, &[first, &vec![end; open]].concat())
    };
    (0..=records.len()).map(up_to).collect()
}

/// The sorts of answers: intervals, a byte past the window, and each refusal of a trace.
pub const SORTS: usize = 5 + REFUSALS.len();

pub fn sort_of(answer: &[u32; COUNT]) -> usize {
    match *answer {
        [0, _, 0, ..] => 0,
        [0, _, 1, _, _, _, 0, ..] => 1,
        [0, _, 1, ..] => 2,
        [0, ..] => 3,
        [9, 0, ..] => 4,
        [number, ..] => {
            let place = REFUSALS.iter().position(|&refusal| refusal == number);
            5 + place.expect("a number that a trace can be refused by")
        }
    }
}

pub fn named_answers(answers: &[u64; SORTS]) -> Vec<(String, u64)> {
    let intervals = [
        "bytes never stored to",
        "intervals open and not written back",
        "intervals open and written back",
        "intervals closed",
        "bytes asked past the window",
    ];
    let intervals = intervals.iter().map(|name| name.to_string());
    let refused = REFUSALS
        .iter()
        .map(|number| format!("interval refused by {number}"));
    intervals
        .chain(refused)
        .zip(answers.iter().copied())
        .collect()
}

/// What intervals are counted for, beside their sorts: events that must not be named.
const BESIDE: [&str; 4] = [
    "intervals with a further write-back of the line before the fence",
    "intervals with a write-back of the line before the store",
    "intervals with an earlier store",
    "intervals with a fence between store and write-back",
];

/// Which of them the interval of a byte has.
fn beside(trace: &[u8], byte: u16, answer: &[u32; COUNT]) -> [bool; BESIDE.len()] {
    let [0, _, 1 | 2, _, _, store, back, fence, ..] = *answer else {
        return [false; BESIDE.len()];
    };
    let end = if fence == 0 { u32::MAX } else { fence };
    let mut beside = [false; BESIDE.len()];
    let body = trace::open(trace).expect("an accepted trace");
    for (record, number) in body.record_bytes().zip(1..) {
        match trace::read(record).expect("an accepted trace").event {
            Event::WriteBack(a) if a.touches(usize::from(byte) / LINE) => {
                beside[0] |= back != 0 && (back + 1..end).contains(&number);
                beside[1] |= number < store;
            }
            Event::Store(a) if a.covers(usize::from(byte)) => beside[2] |= number < store,
            Event::Fence => beside[3] |= (store..back).contains(&number),
            _ => {}
        }
    }
    beside
}

/// What was covered, by the answers of the unrelated checker.
#[derive(Clone, Default)]
struct Counts {
    answers: [u64; SORTS],
    beside: [u64; BESIDE.len()],
    /// Intervals after traces with a range of no bytes.
    no_bytes: u64,
}

impl Counts {
    fn add(&mut self, trace: &[u8], no_bytes: bool, byte: u16, answer: &[u32; COUNT]) {
        self.answers[sort_of(answer)] += 1;
        add_each(
            &mut self.beside,
            &beside(trace, byte, answer).map(u64::from),
        );
        let interval = answer[0] == 0 && answer[2] > 0;
        self.no_bytes += u64::from(interval && no_bytes);
    }

    fn named(&self) -> Vec<(String, u64)> {
        let mut named = vec![("bytes asked".to_string(), self.answers.iter().sum())];
        named.extend(named_answers(&self.answers));
        let beside = BESIDE.iter().zip(self.beside);
        named.extend(beside.map(|(name, count)| (name.to_string(), count)));
        let no_bytes = "intervals of traces with a range of no bytes";
        named.push((no_bytes.to_string(), self.no_bytes));
        named
    }
}

impl AddAssign for Counts {
    fn add_assign(&mut self, other: Counts) {
        add_each(&mut self.answers, &other.answers);
        add_each(&mut self.beside, &other.beside);
        self.no_bytes += other.no_bytes;
    }
}

/// A byte of a trace whose interval is another one.
struct Difference {
    asking: &'static str,
    number: u64,
    trace: Vec<u8>,
    byte: u16,
    /// Whether the call left the trace as it was.
    kept: bool,
    expected: Numbers<COUNT>,
    returned: Numbers<COUNT>,
}

impl Difference {
    /// What differs, in lines. The trace goes to the file.
    fn report(&self, seed: u64, file: &Path) -> String {
        let (asking, number, byte) = (self.asking, self.number, self.byte);
        let kept = match self.kept {
            true => "the trace is as it was",
            false => "the trace changed",
        };
        format!(
            "differential: interval {asking} differs from reference on byte {byte} of trace {number} of seed {seed}\n\
             reference: {:?}\n{asking}: {:?}\n{kept}\ntrace of {} bytes\n\
             it is among the last traces of: harness differential {number} {seed}\n{}",
            self.expected,
            self.returned,
            self.trace.len(),
            saved(file, &self.trace)
        )
    }
}

/// The numbers after a call for a byte, and whether the trace is as it was.
pub fn after(
    before: &Numbers<COUNT>,
    call: Ask,
    trace: &[u8],
    byte: u16,
) -> (Numbers<COUNT>, bool) {
    before.after(|trace, answer| call(trace, byte, answer), trace)
}

/// Compares every call with the unrelated interval on what is asked with the numbers of a seed.
fn compare(calls: &[Asking], numbers: u64, seed: u64) -> Result<Counts, Box<Difference>> {
    spread(
        "traces to the interval",
        numbers,
        |_, number, counts: &mut Counts| {
            let before = Numbers::new(&mut random_for(seed, number));
            for asked in asked(seed, number) {
                compare_one(calls, &before, number, &asked, counts)?;
            }
            Ok(())
        },
    )
}

/// Compares every call on all bytes that are asked of one trace.
fn compare_one(
    calls: &[Asking],
    before: &Numbers<COUNT>,
    number: u64,
    Asked { trace, bytes }: &Asked,
    counts: &mut Counts,
) -> Result<(), Box<Difference>> {
    let no_bytes = no_bytes::any_in_trace(trace);
    for &byte in bytes {
        let (expected, _) = after(before, reference_interval, trace, byte);
        counts.add(trace, no_bytes, byte, &expected.answer());
        for asking in calls {
            let (returned, kept) = after(before, asking.call, trace, byte);
            if returned != expected || !kept {
                return Err(Box::new(Difference {
                    asking: asking.name,
                    number,
                    trace: trace.clone(),
                    byte,
                    kept,
                    expected,
                    returned,
                }));
            }
        }
    }
    Ok(())
}

/// The lines for standard output, or, for a failure, those for standard error.
pub fn command(calls: &[Asking], numbers: u64, seed: u64) -> Result<String, String> {
    match compare(calls, numbers, seed) {
        Ok(counts) => {
            let text = counted(&counts.named(), numbers >= TRACES)?;
            let names: Vec<_> = calls.iter().map(|asking| asking.name).collect();
            let names = names.join(", ");
            Ok(format!(
                "{text}intervals compared with reference: {names}\nseed {seed}\ndiffer 0\n"
            ))
        }
        Err(difference) => Err(difference.report(seed, &target_file(FILE))),
    }
}

#[cfg(test)]
pub mod tests {
    use super::*;
    use crate::differential::given;
    use crate::interval::interval;
    use crate::no_bytes::tests::{
        back_to_size, beyond_size, changed, hidden, replaced, with_8, with_byte,
    };
    use crate::plain;
    use crate::shared::tests::{
        refuse_before_9, refuse_empty_inside, refuse_touching, take_last_byte, take_shared,
    };

    pub const RIGHT: Asking = Asking {
        name: "right",
        call: interval,
    };

    const fn wrong(name: &'static str, call: Ask) -> Asking {
        Asking { name, call }
    }

    /// Calls that refuse otherwise.
    const WRONG_REFUSALS: [Asking; 17] = [
        wrong("gives no 9 past the window", |trace, byte, answer| {
            interval(trace, byte, answer);
            if answer[..2] == [9, 0] {
                *answer = [0; COUNT];
            }
        }),
        wrong(
            "gives 9 past the window at a record",
            |trace, byte, answer| {
                interval(trace, byte, answer);
                answer[1] += u32::from(answer[..2] == [9, 0]);
            },
        ),
        wrong(
            "gives 9 past the window before the rest",
            |trace, byte, answer| {
                interval(trace, byte, answer);
                let window = trace::open(trace).map(|body| window(&body));
                if window.is_ok_and(|window| usize::from(byte) >= window) {
                    [answer[0], answer[1]] = [9, 0];
                }
            },
        ),
        wrong(
            "takes the byte at the window's size",
            |trace, byte, answer| {
                interval(trace, byte, answer);
                let size = trace::open(trace).map(|body| window(&body));
                if answer[..2] == [9, 0] && size == Ok(usize::from(byte)) {
                    *answer = [0; COUNT];
                }
            },
        ),
        wrong("refuses the window's last byte", |trace, byte, answer| {
            interval(trace, byte, answer);
            let size = trace::open(trace).map(|body| window(&body));
            if answer[0] == 0 && size == Ok(usize::from(byte) + 1) {
                *answer = [0; COUNT];
                answer[0] = 9;
            }
        }),
        wrong("takes the byte modulo the window", |trace, byte, answer| {
            let window = trace::open(trace).map_or(65_536, |body| window(&body));
            interval(trace, (usize::from(byte) % window) as u16, answer);
        }),
        wrong("gives numbers with a refusal", |trace, byte, answer| {
            interval(trace, byte, answer);
            answer[10] += u32::from(answer[0] != 0);
        }),
        wrong(
            "gives 17 for a byte never stored to",
            |trace, byte, answer| {
                interval(trace, byte, answer);
                if answer[0] == 0 && answer[2] == 0 {
                    answer[0] = 17;
                }
            },
        ),
        wrong("still gives 8", |trace, byte, answer| {
            interval(&hidden(trace), byte, answer);
            answer[0] = with_8(trace, answer[0], answer[1]);
        }),
        wrong(
            "refuses no bytes at the window's size",
            |trace, byte, answer| {
                interval(&replaced(trace, beyond_size), byte, answer);
            },
        ),
        wrong(
            "takes no bytes beyond the window's size",
            |trace, byte, answer| {
                interval(&replaced(trace, back_to_size), byte, answer);
            },
        ),
        wrong("takes ranges that share a byte", |trace, byte, answer| {
            interval(&changed(trace, take_shared), byte, answer);
        }),
        wrong(
            "takes ranges that share a last byte",
            |trace, byte, answer| {
                interval(&changed(trace, take_last_byte), byte, answer);
            },
        ),
        wrong("refuses ranges that touch by 18", |trace, byte, answer| {
            interval(&changed(trace, refuse_touching), byte, answer);
        }),
        wrong("refuses no bytes inside by 18", |trace, byte, answer| {
            interval(&changed(trace, refuse_empty_inside), byte, answer);
        }),
        wrong("gives 18 before 9", |trace, byte, answer| {
            interval(&changed(trace, refuse_before_9), byte, answer);
        }),
        wrong("gives 18 with a number from 0", |trace, byte, answer| {
            interval(trace, byte, answer);
            answer[1] -= u32::from(answer[0] == 18);
        }),
    ];

    /// Calls that answer what no interval can be, which needs no model to be seen.
    const WRONG_FORMS: [Asking; 14] = [
        wrong("says closed while open", |trace, byte, answer| {
            interval(trace, byte, answer);
            if answer[2] == 1 {
                answer[2] = 2;
            }
        }),
        wrong(
            "names a write-back before the last store",
            |trace, byte, answer| {
                renamed(trace, byte, answer, |events, [store, back, _]| {
                    if *back == 0 {
                        let before = events.backs.iter().rfind(|&number| number < store);
                        *back = before.copied().unwrap_or(0);
                    }
                });
            },
        ),
        wrong(
            "names the fence of an earlier store",
            |trace, byte, answer| {
                renamed(trace, byte, answer, |events, [store, _, fence]| {
                    if let (true, Some(earlier)) = (*fence != 0, events.fence_before(*store)) {
                        *fence = earlier;
                    }
                });
            },
        ),
        wrong("names a fence while open", |trace, byte, answer| {
            renamed(trace, byte, answer, |events, [store, _, fence]| {
                if *fence == 0 {
                    *fence = first_after(&events.fences, *store);
                }
            });
        }),
        wrong(
            "names the fence of an earlier store while open",
            |trace, byte, answer| {
                renamed(trace, byte, answer, |events, [store, _, fence]| {
                    if let (0, Some(earlier)) = (*fence, events.fence_before(*store)) {
                        *fence = earlier;
                    }
                });
            },
        ),
        wrong("names another line's write-back", |trace, byte, answer| {
            renamed(trace, byte, answer, |events, [store, back, fence]| {
                let other = first_after(&events.other_backs, *store);
                if other != 0 && (*fence == 0 || other < *fence) {
                    *back = other;
                }
            });
        }),
        wrong(
            "names another line's write-back for none",
            |trace, byte, answer| {
                renamed(trace, byte, answer, |events, [store, back, _]| {
                    if *back == 0 {
                        *back = first_after(&events.other_backs, *store);
                    }
                });
            },
        ),
        wrong(
            "names a write-back after the fence",
            |trace, byte, answer| {
                renamed(trace, byte, answer, |events, [_, back, fence]| {
                    let later = first_after(&events.backs, *fence);
                    if *fence != 0 && later != 0 {
                        *back = later;
                    }
                });
            },
        ),
        wrong("exchanges store and write-back", |trace, byte, answer| {
            renamed(trace, byte, answer, |_, [store, back, _]| {
                std::mem::swap(store, back);
            });
        }),
        wrong("exchanges write-back and fence", |trace, byte, answer| {
            renamed(trace, byte, answer, |_, [_, back, fence]| {
                if *fence != 0 {
                    std::mem::swap(back, fence);
                }
            });
        }),
        wrong("exchanges the epochs", |trace, byte, answer| {
            interval(trace, byte, answer);
            answer.swap(3, 4);
        }),
        wrong("numbers the events from 0", |trace, byte, answer| {
            interval(trace, byte, answer);
            for event in &mut answer[5..8] {
                *event = event.saturating_sub(1);
            }
        }),
        wrong("exchanges the sites", |trace, byte, answer| {
            interval(trace, byte, answer);
            answer.swap(8, 9);
        }),
        wrong(
            "gives the site of the next record",
            |trace, byte, answer| {
                interval(trace, byte, answer);
                let next = [5, 6, 7].map(|at| match answer[at] {
                    0 => 0,
                    event => site(trace, event + 1),
                });
                answer[8..].copy_from_slice(&next);
            },
        ),
    ];

    /// Calls that name another event of the right kind, which only a model can tell, or take an event
    /// for another.
    const WRONG_EVENTS: [Asking; 7] = [
        wrong("names the last write-back", |trace, byte, answer| {
            renamed(trace, byte, answer, |events, [_, back, fence]| {
                let end = if *fence == 0 { u32::MAX } else { *fence };
                let last = events.backs.iter().rfind(|&&number| number < end);
                if *back != 0 {
                    *back = last.copied().unwrap_or(0);
                }
            });
        }),
        wrong("names the second fence", |trace, byte, answer| {
            renamed(trace, byte, answer, |events, [_, _, fence]| {
                let later = first_after(&events.fences, *fence);
                if *fence != 0 && later != 0 {
                    *fence = later;
                }
            });
        }),
        wrong("names the first store", |trace, byte, answer| {
            renamed(trace, byte, answer, |events, [store, _, _]| {
                *store = events.stores[0];
            });
        }),
        wrong(
            "keeps the events of an earlier store",
            |trace, byte, answer| {
                renamed(trace, byte, answer, |events, [_, back, fence]| {
                    let first = events.stores[0];
                    if *fence != 0 {
                        *back = first_after(&events.backs, first);
                        *fence = first_after(&events.fences, *back);
                    }
                });
            },
        ),
        wrong("names no write-back while open", |trace, byte, answer| {
            renamed(trace, byte, answer, |_, [_, back, fence]| {
                if *fence == 0 {
                    *back = 0;
                }
            });
        }),
        wrong(
            "takes a store of no bytes for one of its byte",
            |trace, byte, answer| {
                interval(&with_byte(trace, Event::STORE), byte, answer);
            },
        ),
        wrong(
            "takes a write-back of no bytes for one of its line",
            |trace, byte, answer| {
                interval(&with_byte(trace, Event::WRITE_BACK), byte, answer);
            },
        ),
    ];

    /// Those that need no model to be seen.
    pub fn wrong_without_model() -> impl Iterator<Item = &'static Asking> {
        WRONG_REFUSALS.iter().chain(&WRONG_FORMS)
    }

    /// The numbers of the events of an accepted trace that a byte's interval may depend on.
    struct Events {
        /// The stores that cover the byte.
        stores: Vec<u32>,
        /// The write-backs of its line, and those of other lines alone.
        backs: Vec<u32>,
        other_backs: Vec<u32>,
        fences: Vec<u32>,
    }

    impl Events {
        fn of(trace: &[u8], byte: u16) -> Events {
            let mut events = Events {
                stores: Vec::new(),
                backs: Vec::new(),
                other_backs: Vec::new(),
                fences: Vec::new(),
            };
            let body = trace::open(trace).expect("an accepted trace");
            for (record, number) in body.record_bytes().zip(1..) {
                match trace::read(record).expect("an accepted trace").event {
                    Event::Store(a) if a.covers(usize::from(byte)) => events.stores.push(number),
                    Event::WriteBack(a) if a.touches(usize::from(byte) / LINE) => {
                        events.backs.push(number);
                    }
                    Event::WriteBack(a) if a.has_bytes() => events.other_backs.push(number),
                    Event::Fence => events.fences.push(number),
                    _ => {}
                }
            }
            events
        }

        /// The fence that closed the byte after the store before this one, if one did.
        fn fence_before(&self, store: u32) -> Option<u32> {
            let earlier = self.stores.iter().rfind(|&&number| number < store)?;
            let back = first_after(&self.backs, *earlier);
            let fence = first_after(&self.fences, back);
            (back != 0 && (1..store).contains(&fence)).then_some(fence)
        }
    }

    /// The first of the events after this one, 0 if there is none.
    fn first_after(events: &[u32], event: u32) -> u32 {
        let mut later = events.iter().filter(|&&number| number > event);
        later.next().copied().unwrap_or(0)
    }

    /// The site of a record, 0 if there is none.
    fn site(trace: &[u8], number: u32) -> u32 {
        let body = trace::open(trace).expect("an accepted trace");
        let at = (number as usize).checked_sub(1);
        let record = at.and_then(|at| body.record_bytes().nth(at));
        record.map_or(0, |record| u32::from(trace::site_of(record)))
    }

    /// Names other events in the place of store, write-back and fence, with their sites. Of a byte never
    /// stored to there is none.
    fn renamed(
        trace: &[u8],
        byte: u16,
        answer: &mut [u32; COUNT],
        rename: fn(&Events, [&mut u32; 3]),
    ) {
        interval(trace, byte, answer);
        if let [0, _, 1 | 2, _, _, store, back, fence, sites @ ..] = answer {
            rename(&Events::of(trace, byte), [store, back, fence]);
            *sites = [*store, *back, *fence].map(|number| site(trace, number));
        }
    }

    fn difference(calls: &[Asking]) -> Box<Difference> {
        let found = compare(calls, 1_000, 1).err();
        found.unwrap_or_else(|| panic!("no difference found: {}", calls[0].name))
    }

    #[test]
    fn the_proved_and_the_plain_interval_agree() {
        let plain = wrong("plain", plain::interval);
        let counts = compare(&[RIGHT, plain], 3_000, 5).ok().unwrap();
        let named = counts.named();
        assert!(counted(&named, true).is_ok(), "{named:?}");
        assert!(named[0].1 > 3_000 * 3 + 2_801 * 130, "{named:?}");
    }

    #[test]
    fn every_wrong_interval_is_found() {
        for asking in wrong_without_model().chain(&WRONG_EVENTS) {
            let found = difference(&[RIGHT, *asking]);
            assert_eq!(found.asking, asking.name);
            let again = difference(&[*asking]);
            let place = |found: &Difference| (found.number, found.byte);
            assert_eq!(place(&found), place(&again), "{}", asking.name);
        }
    }

    /// With the right events, the intervals that are renamed are right.
    #[test]
    fn only_what_is_named_is_wrong() {
        let same: Ask = |trace, byte, answer| renamed(trace, byte, answer, |_, _| {});
        let made: Ask = |trace, byte, answer| {
            renamed(trace, byte, answer, |events, [store, back, fence]| {
                let last = events.stores.last().copied().unwrap_or(0);
                *store = last;
                *back = first_after(&events.backs, last);
                *fence = match *back {
                    0 => 0,
                    back => first_after(&events.fences, back),
                };
            });
        };
        assert!(compare(&[wrong("same", same), wrong("made", made)], 500, 3).is_ok());
    }

    #[test]
    fn a_difference_is_reported_and_its_trace_saved() {
        let found = difference(&[WRONG_EVENTS[0]]);
        let file = target_file("harness-test-interval.trace");
        let report = found.report(1, &file);
        let saved = std::fs::read(&file).unwrap();
        std::fs::remove_file(&file).unwrap();
        let mut traces = asked(1, found.number).into_iter();
        assert!(traces.any(|asked| asked.trace == saved && asked.bytes.contains(&found.byte)));
        for part in [
            format!(
                "on byte {} of trace {} of seed 1\n",
                found.byte, found.number
            ),
            format!("{:?}", found.expected),
            format!("{:?}", found.returned),
            format!("harness differential {} 1\n", found.number),
            "harness-test-interval.trace".to_string(),
        ] {
            assert!(report.contains(&part), "{part}: {report}");
        }
    }

    /// Every list of up to five events is asked once.
    #[test]
    fn lists_are_all_different() {
        let mut random = Random::new(1);
        let lists = 1 + 7 + 49 + 343 + 2_401 + 16_807;
        let events = |asked: &Asked| -> Vec<Event> {
            assert_eq!(asked.bytes.len(), 130);
            let body = trace::open(&asked.trace).unwrap();
            let records = body.record_bytes();
            records
                .map(|record| trace::read(record).unwrap().event)
                .collect()
        };
        let mut seen = std::collections::HashSet::new();
        let mut length = 0;
        for number in 1..=lists {
            let events = events(&list(&mut random, number).unwrap());
            assert!(events.len() >= length && events.len() <= 5);
            length = events.len();
            assert!(seen.insert(events), "{number}");
        }
        assert!(list(&mut random, lists + 1).is_none());
    }

    /// A small trace is asked after each of its events, and accepted there.
    #[test]
    fn small_traces_are_asked_after_each_event() {
        let mut random = Random::new(3);
        for _ in 0..50 {
            let asked = after_each_event(&mut random);
            let mut last: Vec<[u8; RECORD]> = Vec::new();
            for (count, asked) in asked.iter().enumerate() {
                assert!(reference::judge(&asked.trace, asked.trace.len())
                    .report()
                    .is_some());
                let body = trace::open(&asked.trace).unwrap();
                assert_eq!(asked.bytes.len(), window(&body) + 2);
                let records: Vec<_> = body.record_bytes().copied().collect();
                let before = count.saturating_sub(1);
                assert_eq!(records[..before], last[..before]);
                last = records;
            }
        }
    }

    #[test]
    fn what_is_asked_follows_from_seed_and_number() {
        let traces = |seed, number| -> Vec<_> {
            let asked = asked(seed, number).into_iter();
            asked.map(|asked| (asked.trace, asked.bytes)).collect()
        };
        let at_200 = traces(1, 200);
        assert_eq!(at_200[0].0, given(1, 200).trace);
        assert!(at_200 == traces(1, 200) && at_200 != traces(2, 200));
        assert!(at_200.len() > 5);
        assert_eq!((traces(1, 199).len(), traces(1, 30_001).len()), (2, 1));
    }
}
