//! Calls drawn at random from a fixed seed: events, refused ones among them, bytes and exposures
//! asked between them, and closings.

use super::{Call, Case};
use crate::event::{Event, Range, Record, LINE, MAX_LINES};
use crate::random::{self, Mix, Random, Shape};

const SEED: u64 = 201;
const RUNS: usize = 150;
const TORN_SEED: u64 = 202;
const TORN_RUNS: usize = 30;
const EXPOSURE_SEED: u64 = 203;
const EXPOSURE_RUNS: usize = 20;
const EXPOSED_EVENTS: usize = 20;
const NO_BYTES_SEED: u64 = 204;
const NO_BYTES_RUNS: usize = 10;
const NO_BYTES_EVENTS: usize = 12;
/// How many of 100 ranges have no byte in those runs.
const NO_BYTES: usize = 40;
const SHARED_SEED: u64 = 205;
const SHARED_RUNS: usize = 10;
const SHARED_EVENTS: usize = 12;
/// Windows beside those of 1, 2, 63 and 64 lines.
const OTHER: [u16; 8] = [3, 4, 5, 8, 16, 31, 32, 62];
/// Windows that are refused; the low bytes of some would be taken.
const REFUSED: [u16; 8] = [0, 65, 66, 255, 256, 257, 320, u16::MAX];
/// Mostly stores, write-backs and fences, for closed intervals.
const CLOSING: Mix = Mix {
    store: 8,
    write_back: 9,
    fence: 8,
    transaction: 1,
    persisted: 1,
    ordered: 1,
    within: 0,
};
const MOST_EVENTS: usize = 60;
/// How many of the latest ranges are asked for.
const LATEST: usize = 4;

pub(super) fn cases() -> Vec<Case> {
    let mut random = Random::new(SEED);
    let mut asked = Vec::new();
    let mut cases = Vec::with_capacity(RUNS);
    for number in 0..RUNS {
        let lines = window(&mut random, number);
        let mut drawer = Drawer::new(&mut random, lines);
        drawer.ask_again(&asked);
        drawer.draw();
        asked = drawer.asked;
        cases.push(Case {
            group: "random",
            calls: drawer.calls,
        });
    }
    cases
}

/// Runs of stores of several words, and of orders between their parts.
pub(super) fn torn_cases() -> Vec<Case> {
    let mut random = Random::new(TORN_SEED);
    let run = |_| {
        let shape = random::torn_shape(&mut random);
        let mut calls = vec![Call::Fresh(shape.lines)];
        calls.extend(
            random::events(&mut random, &shape)
                .into_iter()
                .map(Call::Give),
        );
        calls.push(Call::Close);
        Case {
            group: "torn random",
            calls,
        }
    };
    (0..TORN_RUNS).map(run).collect()
}

/// Runs of mostly stores, write-backs and fences, with the mean exposure asked after every event.
pub(super) fn exposure_cases() -> Vec<Case> {
    let mut random = Random::new(EXPOSURE_SEED);
    let run = |number| {
        let lines = window(&mut random, number);
        let mut drawer = Drawer::new(&mut random, lines);
        drawer.draw_exposed();
        Case {
            group: "exposure random",
            calls: drawer.calls,
        }
    };
    (0..EXPOSURE_RUNS).map(run).collect()
}

/// Runs with many ranges of no bytes, and bytes asked between them.
pub(super) fn no_bytes_cases() -> Vec<Case> {
    let mut random = Random::new(NO_BYTES_SEED);
    let run = |number| {
        let lines = window(&mut random, number);
        let mut drawer = Drawer::new(&mut random, lines);
        drawer.draw_no_bytes();
        Case {
            group: "no bytes random",
            calls: drawer.calls,
        }
    };
    (0..NO_BYTES_RUNS).map(run).collect()
}

/// Runs with many orders between ranges that share a byte, or touch, and bytes asked between them.
pub(super) fn shared_cases() -> Vec<Case> {
    let mut random = Random::new(SHARED_SEED);
    let run = |number| {
        let lines = window(&mut random, number);
        let mut drawer = Drawer::new(&mut random, lines);
        drawer.draw_shared();
        Case {
            group: "shared random",
            calls: drawer.calls,
        }
    };
    (0..SHARED_RUNS).map(run).collect()
}

/// Events for a window of so many lines, with some that may be refused among them.
pub(super) fn events(random: &mut Random, lines: u16) -> Vec<Event> {
    let mut drawer = Drawer::new(random, lines);
    let shape = drawer.shape();
    drawer.events(&shape)
}

/// The lines that the run of this number asks for.
pub(super) fn window(random: &mut Random, number: usize) -> u16 {
    let round = number / 10;
    match number % 10 {
        0 | 1 => 1,
        2..=4 => 2,
        5 => 63,
        6 | 7 => 64,
        8 => REFUSED[round % REFUSED.len()],
        _ => random.pick(&OTHER),
    }
}

/// Draws the calls of one run.
struct Drawer<'a> {
    random: &'a mut Random,
    /// The lines that the run has.
    lines: u16,
    calls: Vec<Call>,
    /// The bytes asked that are in the window.
    asked: Vec<u16>,
    /// The latest ranges in the window.
    latest: Vec<Range>,
}

impl Drawer<'_> {
    fn new(random: &mut Random, lines: u16) -> Drawer<'_> {
        let taken = (1..=MAX_LINES).contains(&lines);
        Drawer {
            random,
            lines: if taken { lines } else { 1 },
            calls: vec![Call::Fresh(lines)],
            asked: Vec::new(),
            latest: Vec::new(),
        }
    }

    /// The bytes in the window.
    fn window(&self) -> usize {
        usize::from(self.lines) * LINE
    }

    /// Asks some bytes that were asked in the run before.
    fn ask_again(&mut self, before: &[u16]) {
        if !before.is_empty() {
            for _ in 0..self.random.below(3) {
                let byte = self.random.pick(before);
                self.ask(byte);
            }
        }
    }

    fn draw(&mut self) {
        let shape = self.shape();
        for event in self.events(&shape) {
            self.give(event);
        }
        self.calls.push(Call::Close);
    }

    fn draw_no_bytes(&mut self) {
        let shape = Shape {
            events: NO_BYTES_EVENTS,
            no_bytes: NO_BYTES,
            ..self.shape()
        };
        for event in self.events(&shape) {
            self.give(event);
            if self.random.chance(1, 8) {
                self.calls.push(Call::Exposure);
            }
        }
        self.calls.push(Call::Close);
    }

    /// Behind many events with a range, an order between it and one near it.
    fn draw_shared(&mut self) {
        let shape = Shape {
            events: SHARED_EVENTS,
            ..self.shape()
        };
        for record in random::events(self.random, &shape) {
            self.give(record.event);
            match record.event.range_a() {
                Some(a) if self.random.chance(2, 3) => {
                    let other = random::near(self.random, a);
                    let (a, b) = self.random.pick(&[(a, other), (other, a)]);
                    self.give(Event::Ordered(a, b));
                }
                _ => {}
            }
        }
        self.calls.push(Call::Close);
    }

    /// Events, few of them refused, with the mean exposure asked behind each. Some bytes are closed
    /// first in most runs.
    fn draw_exposed(&mut self) {
        let shape = Shape {
            mix: self.random.pick(&[CLOSING, CLOSING, CLOSING, Mix::EVEN]),
            events: EXPOSED_EVENTS,
            ..self.shape()
        };
        if self.random.chance(3, 4) {
            let (any, whole) = self.long_ranges(&shape);
            for event in [Event::Store(any), Event::WriteBack(whole), Event::Fence] {
                self.give_exposed(event);
            }
        }
        for record in random::events(self.random, &shape) {
            if self.random.chance(1, 12) {
                let refused = self.event_at_the_end(&shape);
                self.give_exposed(refused);
            }
            let event = self.of_any_length(&shape, record.event);
            self.give_exposed(event);
        }
        self.calls.push(Call::Close);
    }

    /// Gives the event and asks the mean exposure; many fences follow some stores.
    fn give_exposed(&mut self, event: Event) {
        let site = self.random.bits() as u16;
        self.calls.push(Call::Give(Record { event, site }));
        self.calls.push(Call::Exposure);
        if matches!(event, Event::Store(_)) && self.random.chance(1, 2) {
            let count = self.random.pick(&[1, 1, 2, 3, 9, 30]);
            self.calls.push(Call::Fences(count));
        }
    }

    /// A range of any length, and the whole window.
    fn long_ranges(&mut self, shape: &Shape) -> (Range, Range) {
        let longest = self.lines * LINE as u16;
        let any = random::range(self.random, &Shape { longest, ..*shape });
        (any, Range::new(0, longest))
    }

    /// The event; some stores and write-backs get a range of any length, or the whole window.
    fn of_any_length(&mut self, shape: &Shape, event: Event) -> Event {
        let (any, whole) = self.long_ranges(shape);
        match (event, self.random.below(6)) {
            (Event::Store(_), 0 | 1) => Event::Store(any),
            (Event::WriteBack(_), 0) => Event::WriteBack(any),
            (Event::WriteBack(_), 1..=3) => Event::WriteBack(whole),
            _ => event,
        }
    }

    /// Events, with some that may be refused among them.
    fn events(&mut self, shape: &Shape) -> Vec<Event> {
        let mut events = Vec::new();
        for record in random::events(self.random, shape) {
            events.push(record.event);
            if self.random.chance(1, 6) {
                let odd = self.odd_events(shape, record.event);
                events.extend(odd);
            }
        }
        events.truncate(MOST_EVENTS);
        events
    }

    fn shape(&mut self) -> Shape {
        let longest = [2, 4, 8, 8, 16, 16, 64, 130, 4_096];
        let any = random::small_shape(self.random);
        Shape {
            lines: self.lines,
            events: 5 + self.random.below(41),
            mix: self.random.pick(&[any.mix, any.mix, CLOSING]),
            longest: self.random.pick(&longest),
            ..any
        }
    }

    /// Gives the event, and makes some calls after it.
    fn give(&mut self, event: Event) {
        let site = self.random.bits() as u16;
        self.calls.push(Call::Give(Record { event, site }));
        self.note(event);
        let often = usize::from(event == Event::Fence);
        if self.random.chance(1 + often, 3) {
            for _ in 0..1 + self.random.below(3) {
                let byte = self.byte();
                self.ask(byte);
            }
        }
        if self.random.chance(1, 12) {
            self.calls.push(Call::Close);
        }
        if self.random.chance(1, 60) {
            let count = self.random.pick(&[0, 1, 1, 2, 3, 9, 9, 40, 300]);
            self.calls.push(Call::Fences(count));
        }
    }

    /// Keeps the event's ranges, if they are in the window: of all stores and some others.
    fn note(&mut self, event: Event) {
        let wanted = matches!(event, Event::Store(_)) || self.random.chance(1, 4);
        if wanted && event.check_ranges(self.window()).is_ok() {
            self.latest.extend(event.range_a());
            self.latest.extend(event.range_b());
            let more = self.latest.len().saturating_sub(LATEST);
            self.latest.drain(..more);
        }
    }

    fn ask(&mut self, byte: u16) {
        self.calls.push(Call::Ask(byte));
        if usize::from(byte) < self.window() {
            self.asked.push(byte);
        }
    }

    /// A byte to be asked: at an edge, asked before, or any.
    fn byte(&mut self) -> u16 {
        let window = self.window();
        let byte = match self.random.below(20) {
            0 => 0,
            1 => window - 1,
            2 => window,
            3 => self.random.below(window),
            4 => self.far_byte(),
            5..=9 if !self.asked.is_empty() => usize::from(self.random.pick(&self.asked)),
            _ => self.edge(),
        };
        byte.min(usize::from(u16::MAX)) as u16
    }

    fn far_byte(&mut self) -> usize {
        let any = self.random.below(65_536);
        self.random.pick(&[any, any, 4_095, 4_096, 32_768, 65_535])
    }

    /// A byte at an edge of one of the latest ranges, or of a line that it touches.
    fn edge(&mut self) -> usize {
        if self.latest.is_empty() {
            return self.random.below(self.window());
        }
        let range = self.random.pick(&self.latest);
        let (first, end) = (usize::from(range.address), range.end());
        // The last byte; of a range of no bytes, the one in front of it.
        let last = end.saturating_sub(1);
        let (line, line_end) = (first / LINE * LINE, last / LINE * LINE + LINE - 1);
        let inside = [first, last];
        let outside = [first.saturating_sub(1), end, line, line_end];
        if self.random.chance(2, 3) {
            self.random.pick(&inside)
        } else {
            self.random.pick(&outside)
        }
    }

    /// Events that may be refused, to stand behind this one.
    fn odd_events(&mut self, shape: &Shape, before: Event) -> Vec<Event> {
        let times = self.random.pick(&[1, 2, 3, 5, 9]);
        match (self.random.below(9), before.range_a()) {
            (0, _) => vec![Event::Begin; times],
            (1, _) => vec![Event::End; times],
            (2, Some(a)) => vec![Event::Log(a); times.min(2)],
            (3, Some(a)) => vec![Event::Ordered(a, random::near(self.random, a))],
            _ => vec![self.event_at_the_end(shape)],
        }
    }

    /// An event with a range of no bytes, past the window or at its end.
    fn event_at_the_end(&mut self, shape: &Shape) -> Event {
        let odd = self.odd_range();
        let other = if self.random.chance(1, 3) {
            self.odd_range()
        } else {
            random::range(self.random, shape)
        };
        self.random.pick(&[
            Event::Store(odd),
            Event::Store(odd),
            Event::WriteBack(odd),
            Event::Log(odd),
            Event::Persisted(odd),
            Event::Ordered(odd, other),
            Event::Ordered(other, odd),
        ])
    }

    fn odd_range(&mut self) -> Range {
        let window = self.lines * LINE as u16;
        let length = 1 + self.random.below(16) as u16;
        let any = self.random.bits() as u16;
        let at = self
            .random
            .pick(&[0, 1, window - 1, window, window + 1, any]);
        let ranges = [
            Range::new(at, 0),
            Range::new(window - length, length),
            Range::new(window - length, length + 1),
            Range::new(0, window + 1),
            Range::new(window, length),
            Range::new(at, u16::MAX),
            Range::new(any.max(window), length),
        ];
        let weighted = [0, 0, 1, 1, 1, 2, 2, 3, 4, 5, 6];
        ranges[self.random.pick(&weighted)]
    }
}
