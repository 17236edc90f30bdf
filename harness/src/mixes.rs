//! Random events to time checkers with. They are not those of `reference`, which change with the requests: times are
//! compared between versions, so these stay as they are. They changed once: 18 refuses an ordered whose ranges share a byte,
//! so such an ordered has another B now, which every version takes. The random numbers drawn are the same, and so are all
//! other events.

use crate::shared::share;
use reference::event::{self, MAX_DEPTH, MAX_LINES};
use reference::random::Random;
use reference::{Event, Range};

const LINE: usize = event::LINE;
const LINES: usize = MAX_LINES as usize;

/// How many ranges the events of one list choose from.
const RANGES: usize = 32;

/// How often each kind of event comes, by weight: stores, write-backs, fences, the events of transactions,
/// persisted, ordered.
pub type Mix = [usize; 6];

/// Every kind of event.
pub const EVEN: Mix = [6, 4, 3, 3, 3, 4];

/// No transactions.
pub const PLAIN: Mix = [6, 4, 3, 0, 3, 4];

/// Events of a window of 64 lines that are accepted, every transaction ended; ranges of 1 to so many bytes.
pub fn random_events(random: &mut Random, events: usize, longest: usize, mix: Mix) -> Vec<Event> {
    let ranges = (0..RANGES).map(|_| range(random, longest)).collect();
    let ranges = Ranges { ranges, longest };
    let mut drawn = Vec::with_capacity(events + MAX_DEPTH);
    let mut depth = 0;
    while drawn.len() < events {
        let event = event(random, &ranges, mix, depth);
        match event {
            Event::Begin => depth += 1,
            Event::End => depth -= 1,
            _ => {}
        }
        drawn.push(with_site(random, event));
    }
    for _ in 0..depth {
        drawn.push(with_site(random, Event::End));
    }
    drawn
}

/// The event. The number drawn was its site once, and the events behind it follow from that.
fn with_site(random: &mut Random, event: Event) -> Event {
    random.bits();
    event
}

struct Ranges {
    ranges: Vec<Range>,
    longest: usize,
}

impl Ranges {
    /// One of the ranges, or a new one.
    fn draw(&self, random: &mut Random) -> Range {
        self.draw_with_place(random).0
    }

    /// One of the ranges and the place behind it, or a new one and the first place.
    fn draw_with_place(&self, random: &mut Random) -> (Range, usize) {
        if random.chance(1, 12) {
            return (range(random, self.longest), 0);
        }
        let place = random.below(self.ranges.len());
        (self.ranges[place], place + 1)
    }

    /// Two ranges that share no byte. In the place of a second one that shares a byte with the first comes the next of the
    /// list that does not.
    fn draw_pair(&self, random: &mut Random) -> (Range, Range) {
        let a = self.draw(random);
        let (drawn, place) = self.draw_with_place(random);
        let next = self.ranges.iter().cycle().skip(place).take(RANGES);
        let mut apart = [drawn].into_iter().chain(next.copied());
        let b = apart.find(|&b| !share(a, b));
        (a, b.expect("not every range shares a byte with A"))
    }
}

fn event(random: &mut Random, ranges: &Ranges, mix: Mix, depth: usize) -> Event {
    let mut left = random.below(mix.iter().sum());
    let kind = mix.iter().position(|&weight| {
        let here = left < weight;
        left = left.saturating_sub(weight);
        here
    });
    match kind.expect("a number below the sum of the weights") {
        0 => Event::Store(ranges.draw(random)),
        1 => Event::WriteBack(ranges.draw(random)),
        2 => Event::Fence,
        3 => transaction_event(random, ranges, depth),
        4 => Event::Persisted(ranges.draw(random)),
        _ => {
            let (a, b) = ranges.draw_pair(random);
            Event::Ordered(a, b)
        }
    }
}

fn transaction_event(random: &mut Random, ranges: &Ranges, depth: usize) -> Event {
    if depth == 0 {
        return Event::Begin;
    }
    match random.below(5) {
        0 if depth < MAX_DEPTH => Event::Begin,
        0..=2 => Event::Log(ranges.draw(random)),
        _ => Event::End,
    }
}

/// A range inside the window; often at the edge of a line.
fn range(random: &mut Random, longest: usize) -> Range {
    let length = 1 + random.below(longest);
    let last_start = LINES * LINE - length;
    let edge = random.below(LINES) * LINE;
    let start = match random.below(4) {
        0 => random.below(last_start + 1),
        1 => edge,
        2 => (edge + LINE).saturating_sub(length),
        _ => (edge + LINE).saturating_sub(length / 2 + 1),
    };
    Range::new(start.min(last_start) as u16, length as u16)
}
