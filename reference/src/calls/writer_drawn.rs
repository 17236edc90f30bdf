//! Calls of the writer drawn at random from a fixed seed: events, refused ones among them, closings
//! between them, and further starts, in areas near the length that is needed.

use super::writing::Writing;
use super::{drawn, Call, Case};
use crate::event::{Event, Record, MAX_LINES};
use crate::random::{self, Random};
use crate::trace::{self, MAX_TRACE, RECORD, TRAILER};

const SEED: u64 = 202;
const RUNS: usize = 50;
const MOST_EVENTS: usize = 30;
/// The longest preamble that leaves room for many records.
const SHORT_PREAMBLE: usize = 40;

pub(super) fn cases() -> Vec<Case> {
    let mut random = Random::new(SEED);
    let run = |number| {
        let lines = drawn::window(&mut random, number);
        let mut drawer = Drawer::new(&mut random, lines);
        drawer.draw(lines);
        Case {
            group: "writer random",
            calls: drawer.calls,
        }
    };
    (0..RUNS).map(run).collect()
}

/// Draws the calls of one run.
struct Drawer<'a> {
    random: &'a mut Random,
    /// The lines of the starts that are not to be refused.
    lines: u16,
    calls: Vec<Call>,
    /// As the calls so far leave it.
    writing: Writing,
}

impl Drawer<'_> {
    fn new(random: &mut Random, asked: u16) -> Drawer<'_> {
        let good = (1..=MAX_LINES).contains(&asked);
        Drawer {
            random,
            lines: if good { asked } else { 1 },
            calls: Vec::new(),
            writing: Writing::new(),
        }
    }

    fn call(&mut self, call: Call) {
        self.writing.answer(call);
        self.calls.push(call);
    }

    fn draw(&mut self, asked: u16) {
        let mut events = drawn::events(self.random, self.lines);
        events.truncate(MOST_EVENTS);
        self.start(events.len(), asked);
        for event in events {
            self.write(event);
            if self.random.chance(1, 40) {
                self.start_again();
            }
        }
        self.call(Call::Finish);
        if self.random.chance(1, 2) {
            for _ in 0..self.writing.writer.open {
                self.write(Event::End);
            }
            self.call(Call::Finish);
        }
    }

    /// An area, a preamble and a start, for so many events; before it one that may be refused.
    fn start(&mut self, events: usize, asked: u16) {
        let preamble = self.preamble_length(events);
        let area = self.area_length(preamble, events).max(preamble);
        self.call(Call::Area(area as u32));
        let from = self.random.bits() as u8;
        self.call(Call::Preamble(preamble as u32, from));
        if asked != self.lines {
            self.call(Call::Start(asked));
        }
        self.call(Call::Start(self.lines));
    }

    /// None, short, or so long that the file has room for about so many events.
    fn preamble_length(&mut self, events: usize) -> usize {
        match self.random.below(6) {
            0 => 0,
            1 => {
                let records = RECORD * self.random.below(events + 1);
                MAX_TRACE - TRAILER - records - self.random.below(RECORD)
            }
            _ => self.random.below(SHORT_PREAMBLE + 1),
        }
    }

    /// Near what the preamble and so many events need.
    fn area_length(&mut self, preamble: usize, events: usize) -> usize {
        let needed = preamble + RECORD * events + TRAILER;
        let length = match self.random.below(5) {
            0 => needed,
            1 => needed + self.random.below(40),
            2 => needed.saturating_sub(self.random.below(4 * RECORD)),
            3 => preamble + self.random.below(needed - preamble),
            _ => 2 * needed,
        };
        length.min(Call::MOST_BYTES as usize)
    }

    /// Gives the event, and makes some calls around it.
    fn write(&mut self, event: Event) {
        let site = self.random.bits() as u16;
        let record = trace::encode(&Record { event, site });
        if self.random.chance(1, 10) {
            let damaged = self.damaged(record);
            self.call(Call::Write(damaged));
        }
        self.call(Call::Write(record));
        if let (Some(a), true) = (event.range_a(), self.random.chance(1, 10)) {
            let event = Event::Ordered(a, random::near(self.random, a));
            self.call(Call::Write(trace::encode(&Record { event, site })));
        }
        if self.random.chance(1, 7) {
            self.call(Call::Finish);
        }
    }

    /// The record with another kind, with a byte set that may be lacking, or with a length of 0.
    fn damaged(&mut self, mut record: [u8; RECORD]) -> [u8; RECORD] {
        match self.random.below(5) {
            0 => record[0] = self.random.pick(&[0, 9, 10, 16, 33, 63]),
            1 => record[1] = self.random.pick(&[1, 128, 255]),
            2 => record[4..6].fill(0),
            _ => record[2 + self.random.below(8)] ^= 1 << self.random.below(8),
        }
        record
    }

    /// Another preamble, often from the area; at times a fresh area; and a start that may be
    /// refused.
    fn start_again(&mut self) {
        let length = self.writing.area.len();
        let preamble = match self.random.below(3) {
            0 => Call::Preamble(self.random.below(SHORT_PREAMBLE + 1) as u32, 1),
            1 => Call::PreambleOfArea(self.random.below(length + 1) as u32),
            _ => {
                self.call(Call::Finish);
                let writer = self.writing.writer;
                let end = writer.offset as usize + RECORD * writer.count as usize + TRAILER;
                Call::PreambleOfArea(end.min(length) as u32)
            }
        };
        self.call(preamble);
        if self.random.chance(1, 3) {
            let more = (length + self.random.below(200)).min(Call::MOST_BYTES as usize);
            self.call(Call::Area(more as u32));
        }
        let odd = self.random.pick(&[0, 1, 2, 64, 65, 257]);
        let lines = self.random.pick(&[self.lines, self.lines, odd]);
        self.call(Call::Start(lines));
    }
}
