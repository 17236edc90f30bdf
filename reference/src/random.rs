//! Seeded random traces, valid and damaged.

use crate::event::{Event, Range, Record, LINE, MAX_DEPTH, MAX_LINES, WORD};
use crate::orders;
use crate::trace::{self, RECORD, TRAILER};

/// A generator of 64-bit numbers (SplitMix64): the same seed gives the same numbers.
#[derive(Clone, Debug)]
pub struct Random {
    state: u64,
}

impl Random {
    pub fn new(seed: u64) -> Random {
        Random { state: seed }
    }

    pub fn bits(&mut self) -> u64 {
        self.state = self.state.wrapping_add(0x9e37_79b9_7f4a_7c15);
        let mut z = self.state;
        z = (z ^ (z >> 30)).wrapping_mul(0xbf58_476d_1ce4_e5b9);
        z = (z ^ (z >> 27)).wrapping_mul(0x94d0_49bb_1331_11eb);
        z ^ (z >> 31)
    }

    /// A number below `limit`, which is not 0.
    pub fn below(&mut self, limit: usize) -> usize {
        (self.bits() % limit as u64) as usize
    }

    pub fn chance(&mut self, of: usize, out_of: usize) -> bool {
        self.below(out_of) < of
    }

    pub fn pick<T: Copy>(&mut self, from: &[T]) -> T {
        from[self.below(from.len())]
    }
}

/// How often each kind of event comes, by weight.
#[derive(Clone, Copy, Debug)]
pub struct Mix {
    pub store: usize,
    pub write_back: usize,
    pub fence: usize,
    pub transaction: usize,
    pub persisted: usize,
    pub ordered: usize,
    /// Ordered assertions between two parts of one store.
    pub within: usize,
}

impl Mix {
    /// Every kind of event.
    pub const EVEN: Mix = Mix {
        store: 6,
        write_back: 4,
        fence: 3,
        transaction: 3,
        persisted: 3,
        ordered: 4,
        within: 0,
    };
    /// No transactions.
    pub const PLAIN: Mix = Mix {
        transaction: 0,
        ..Mix::EVEN
    };
    /// Mostly transactions.
    pub const TRANSACTIONS: Mix = Mix {
        transaction: 12,
        persisted: 1,
        ordered: 1,
        ..Mix::EVEN
    };
    /// Mostly write-backs, for warnings.
    pub const WRITE_BACKS: Mix = Mix {
        write_back: 12,
        fence: 2,
        ..Mix::EVEN
    };
    /// Mostly ordered assertions.
    pub const ORDERED: Mix = Mix {
        ordered: 10,
        transaction: 0,
        ..Mix::EVEN
    };
    /// Mostly ordered assertions, many of them between two parts of one store.
    pub const WITHIN: Mix = Mix {
        transaction: 1,
        persisted: 1,
        within: 8,
        ..Mix::EVEN
    };
}

/// The shape of a random trace.
#[derive(Clone, Copy, Debug)]
pub struct Shape {
    pub lines: u16,
    /// Records before the ends that close what is open.
    pub events: usize,
    pub mix: Mix,
    /// The longest range.
    pub longest: u16,
    /// How many ranges the events of one trace choose from; 0 for a new one each time.
    pub ranges: usize,
    /// How many of 100 ranges have no byte.
    pub no_bytes: usize,
}

/// A list of events that is accepted, every transaction ended.
pub fn events(random: &mut Random, shape: &Shape) -> Vec<Record> {
    let pool: Vec<Range> = (0..shape.ranges).map(|_| range(random, shape)).collect();
    let mut records = Vec::with_capacity(shape.events + MAX_DEPTH);
    let mut depth = 0;
    while records.len() < shape.events {
        let event = event(random, shape, &pool, &records, depth);
        match event {
            Event::Begin => depth += 1,
            Event::End => depth -= 1,
            _ => {}
        }
        records.push(with_site(random, event));
    }
    for _ in 0..depth {
        records.push(with_site(random, Event::End));
    }
    records
}

fn with_site(random: &mut Random, event: Event) -> Record {
    let site = random.bits() as u16;
    Record { event, site }
}

fn event(
    random: &mut Random,
    shape: &Shape,
    pool: &[Range],
    before: &[Record],
    depth: usize,
) -> Event {
    let mix = &shape.mix;
    let weights = [
        mix.store,
        mix.write_back,
        mix.fence,
        mix.transaction,
        mix.persisted,
        mix.ordered,
        mix.within,
    ];
    let mut left = random.below(weights.iter().sum());
    let kind = weights.iter().position(|&weight| {
        let here = left < weight;
        left = left.saturating_sub(weight);
        here
    });
    match kind.expect("a number below the sum of the weights") {
        0 => Event::Store(pooled(random, shape, pool)),
        1 => Event::WriteBack(pooled(random, shape, pool)),
        2 => Event::Fence,
        3 => transaction_event(random, shape, pool, depth),
        4 => Event::Persisted(pooled(random, shape, pool)),
        5 => order(random, shape, |random| pooled(random, shape, pool)),
        _ => {
            let whole = stored(random, before).unwrap_or_else(|| range(random, shape));
            order(random, shape, |random| part(random, shape, whole))
        }
    }
}

/// An ordered assertion between two of these ranges that share no byte. Where two share one, B is
/// drawn again, or both are cut.
fn order(random: &mut Random, shape: &Shape, draw: impl Fn(&mut Random) -> Range) -> Event {
    let (a, mut b) = (draw(random), draw(random));
    while orders::share_a_byte(a, b) {
        if random.chance(1, 3) {
            let (a, b) = apart(random, shape, a, b);
            return Event::Ordered(a, b);
        }
        b = draw(random);
    }
    Event::Ordered(a, b)
}

/// Two ranges that share a byte, cut so that they touch at an edge and share none. If they are the
/// same byte, the one beside it takes B's place.
fn apart(random: &mut Random, shape: &Shape, a: Range, b: Range) -> (Range, Range) {
    let a_first = cut(random, a, b);
    let b_first = cut(random, b, a).map(|(b, a)| (a, b));
    let cuts: Vec<(Range, Range)> = [a_first, b_first].into_iter().flatten().collect();
    if cuts.is_empty() {
        return (a, beside(random, shape, a.address));
    }
    random.pick(&cuts)
}

/// The bytes of one range below an address, and those of the other from it on; `None` if one of them
/// would have none.
fn cut(random: &mut Random, low: Range, high: Range) -> Option<(Range, Range)> {
    let first = high.bytes().start.max(low.bytes().start + 1);
    let last = low.end().min(high.end() - 1);
    if first > last {
        return None;
    }
    let at = first + random.below(last - first + 1);
    let below = Range::new(low.address, at as u16 - low.address);
    let from = Range::new(at as u16, (high.end() - at) as u16);
    Some((below, from))
}

/// A byte of the window beside this one.
fn beside(random: &mut Random, shape: &Shape, byte: u16) -> Range {
    let last = shape.lines * LINE as u16 - 1;
    let below = byte == last || byte > 0 && random.chance(1, 2);
    Range::new(if below { byte - 1 } else { byte + 1 }, 1)
}

/// One of the latest stores of some byte, if there is one.
fn stored(random: &mut Random, before: &[Record]) -> Option<Range> {
    let stores = before.iter().rev().filter_map(|record| match record.event {
        Event::Store(a) if a.has_bytes() => Some(a),
        _ => None,
    });
    let latest: Vec<Range> = stores.take(3).collect();
    (!latest.is_empty()).then(|| random.pick(&latest))
}

/// A part of the range, which has bytes: one of at most a word's length, or of any, or of no byte.
fn part(random: &mut Random, shape: &Shape, range: Range) -> Range {
    if random.chance(shape.no_bytes, 100) {
        return without_bytes(random, range);
    }
    let most = if random.chance(3, 4) {
        range.length.min(WORD as u16)
    } else {
        range.length
    };
    let length = 1 + random.below(usize::from(most)) as u16;
    let places = usize::from(range.length - length) + 1;
    Range::new(range.address + random.below(places) as u16, length)
}

fn transaction_event(random: &mut Random, shape: &Shape, pool: &[Range], depth: usize) -> Event {
    if depth == 0 {
        return Event::Begin;
    }
    match random.below(5) {
        0 if depth < MAX_DEPTH => Event::Begin,
        0..=2 => Event::Log(pooled(random, shape, pool)),
        _ => Event::End,
    }
}

/// One of the ranges to choose from, or a new one; some of them without their bytes.
fn pooled(random: &mut Random, shape: &Shape, pool: &[Range]) -> Range {
    let range = if pool.is_empty() || random.chance(1, 12) {
        range(random, shape)
    } else {
        random.pick(pool)
    };
    if !random.chance(shape.no_bytes, 100) {
        return range;
    }
    match random.below(4) {
        0 => empty_range(random, shape),
        _ => without_bytes(random, range),
    }
}

/// No byte, at an address of the range or just behind it.
fn without_bytes(random: &mut Random, range: Range) -> Range {
    let edges = [
        0,
        range.length,
        random.below(usize::from(range.length) + 1) as u16,
    ];
    Range::new(range.address.saturating_add(random.pick(&edges)), 0)
}

/// No byte, at an address up to the window's size; often at the edge of a line.
fn empty_range(random: &mut Random, shape: &Shape) -> Range {
    let window = usize::from(shape.lines) * LINE;
    let edge = random.below(usize::from(shape.lines) + 1) * LINE;
    let address = match random.below(6) {
        0 => 0,
        1 => window,
        2 => edge,
        3 => edge.saturating_sub(1),
        _ => random.below(window + 1),
    };
    Range::new(address as u16, 0)
}

/// A range of some bytes inside the window; often at the edge of a line.
pub fn range(random: &mut Random, shape: &Shape) -> Range {
    let window = usize::from(shape.lines) * LINE;
    let longest = usize::from(shape.longest).min(window);
    let length = 1 + random.below(longest);
    let last_start = window - length;
    let edge = random.below(usize::from(shape.lines)) * LINE;
    let start = match random.below(4) {
        0 => random.below(last_start + 1),
        1 => edge,
        2 => (edge + LINE).saturating_sub(length),
        _ => (edge + LINE).saturating_sub(length / 2 + 1),
    };
    Range::new(start.min(last_start) as u16, length as u16)
}

/// A valid trace, with free bytes in front of some.
pub fn valid(random: &mut Random, shape: &Shape) -> Vec<u8> {
    let records = events(random, shape);
    let free = if random.chance(1, 3) {
        random.below(20)
    } else {
        0
    };
    let free: Vec<u8> = (0..free).map(|_| random.bits() as u8).collect();
    trace::write(shape.lines, &free, &records)
}

/// A valid trace with damage done to it. Some damage is harmless, so the trace may be accepted.
pub fn damaged(random: &mut Random, shape: &Shape) -> Vec<u8> {
    let mut trace = valid(random, shape);
    for _ in 0..1 + random.below(2) {
        damage(random, &mut trace);
    }
    trace
}

fn damage(random: &mut Random, trace: &mut Vec<u8>) {
    match random.below(14) {
        0 => flip_bit(random, trace),
        1 => shorten(random, trace),
        2 => extend(random, trace),
        3 => edge_of_trailer(random, trace),
        4 => exchange_records(random, trace),
        5 => begin_many(random, trace),
        6 | 7 => order_near_itself(random, trace),
        _ => edge_of_record(random, trace),
    }
}

fn flip_bit(random: &mut Random, trace: &mut [u8]) {
    if !trace.is_empty() {
        let at = random.below(trace.len());
        trace[at] ^= 1 << random.below(8);
    }
}

/// Takes bytes away, at the start, inside or at the end.
fn shorten(random: &mut Random, trace: &mut Vec<u8>) {
    if trace.is_empty() {
        return;
    }
    let most = if random.chance(1, 4) {
        trace.len()
    } else {
        trace.len().min(2 * RECORD)
    };
    let count = 1 + random.below(most);
    let last_start = trace.len() - count;
    let start = match random.below(3) {
        0 => 0,
        1 => random.below(last_start + 1),
        _ => last_start,
    };
    trace.drain(start..start + count);
}

/// Adds bytes, at the start, inside or at the end.
fn extend(random: &mut Random, trace: &mut Vec<u8>) {
    let count = 1 + random.below(2 * RECORD);
    let start = match random.below(3) {
        0 => 0,
        1 => random.below(trace.len() + 1),
        _ => trace.len(),
    };
    let bytes: Vec<u8> = (0..count).map(|_| random.bits() as u8).collect();
    trace.splice(start..start, bytes);
}

/// Sets a field of the trailer to a value at an edge.
fn edge_of_trailer(random: &mut Random, trace: &mut [u8]) {
    if trace.len() < TRAILER {
        return;
    }
    let trailer = trace.len() - TRAILER;
    if random.chance(1, 2) {
        let value = random.pick(&[0, 1, 63, 64, 65, 255, 256, u16::MAX]);
        let at = trailer + random.pick(&[12, 14]);
        trace[at..at + 2].copy_from_slice(&value.to_le_bytes());
    } else {
        let wide = [0, 1, 12, 0x4000_0000, 0x5555_5555, 0x8000_0000, u32::MAX];
        let value = random.pick(&wide);
        let at = trailer + random.pick(&[4, 8]);
        trace[at..at + 4].copy_from_slice(&value.to_le_bytes());
    }
}

/// The places of the records, if the trailer is good.
fn record_starts(trace: &[u8]) -> Vec<usize> {
    let Ok(body) = trace::open(trace) else {
        return Vec::new();
    };
    let offset = body.free.len();
    (0..body.count()).map(|at| offset + RECORD * at).collect()
}

/// Exchanges two records.
fn exchange_records(random: &mut Random, trace: &mut [u8]) {
    let starts = record_starts(trace);
    if starts.is_empty() {
        return;
    }
    let (one, other) = (random.pick(&starts), random.pick(&starts));
    for byte in 0..RECORD {
        trace.swap(one + byte, other + byte);
    }
}

/// Turns records that follow one another into begins.
fn begin_many(random: &mut Random, trace: &mut [u8]) {
    let starts = record_starts(trace);
    if starts.is_empty() {
        return;
    }
    let first = random.below(starts.len());
    let begin = trace::encode(&with_site(random, Event::Begin));
    for &start in starts.iter().skip(first).take(1 + random.below(12)) {
        trace[start..start + RECORD].copy_from_slice(&begin);
    }
}

/// Sets a field of a record to a value at an edge.
fn edge_of_record(random: &mut Random, trace: &mut [u8]) {
    let starts = record_starts(trace);
    if starts.is_empty() {
        return;
    }
    let start = random.pick(&starts);
    let values = [0, 1, 63, 64, 65, 127, 128, 4095, 4096, 4097, u16::MAX];
    let value = random.pick(&values).to_le_bytes();
    match random.below(7) {
        0 => trace[start] = random.pick(&[0, 1, 2, 3, 4, 5, 6, 7, 8, 9, 255]),
        1 => trace[start + 1] = random.pick(&[1, 128, 255]),
        2 => {
            // A range of no bytes.
            let at = start + random.pick(&[2, 2, 6]);
            trace[at..at + 4].copy_from_slice(&[value[0], value[1], 0, 0]);
        }
        _ => {
            let at = start + random.pick(&[2, 4, 6, 8]);
            trace[at..at + 2].copy_from_slice(&value);
        }
    }
}

/// Gives an ordered record a range B at the edges of A or inside it; most share a byte with A.
pub fn order_near_itself(random: &mut Random, trace: &mut [u8]) {
    let mut starts = record_starts(trace);
    starts.retain(|&start| trace[start] == Event::ORDERED);
    if starts.is_empty() {
        return;
    }
    let start = random.pick(&starts);
    let field = |at: usize| u16::from_le_bytes([trace[start + at], trace[start + at + 1]]);
    let b = near(random, Range::new(field(2), field(4)));
    trace[start + 6..start + 8].copy_from_slice(&b.address.to_le_bytes());
    trace[start + 8..start + 10].copy_from_slice(&b.length.to_le_bytes());
}

/// A range at the edges of this one or inside it: the same, a part, one over an edge or around it,
/// one that touches it, or no byte. It may run past the window.
pub fn near(random: &mut Random, range: Range) -> Range {
    let Range { address, length } = range;
    let end = range.end().min(usize::from(u16::MAX)) as u16;
    let more = 1 + random.below(WORD) as u16;
    let skipped = random.below(usize::from(length).max(1)) as u16;
    let left = usize::from(length - skipped).max(1);
    let part = Range::new(
        address.saturating_add(skipped),
        1 + random.below(left) as u16,
    );
    let first = Range::new(address.saturating_sub(more), more + 1);
    let last = Range::new(end.saturating_sub(1), more);
    let around = Range::new(
        address.saturating_sub(more),
        length.saturating_add(2 * more),
    );
    let before = Range::new(address.saturating_sub(more), more.min(address));
    let behind = Range::new(end, more);
    let empty = without_bytes(random, range);
    random.pick(&[
        range, range, part, part, first, last, around, before, behind, empty,
    ])
}

/// A shape for small windows, whose images are few.
pub fn small_shape(random: &mut Random) -> Shape {
    let mixes = [
        Mix::EVEN,
        Mix::PLAIN,
        Mix::TRANSACTIONS,
        Mix::WRITE_BACKS,
        Mix::ORDERED,
    ];
    Shape {
        lines: 1 + random.below(4) as u16,
        events: 6 + random.below(25),
        mix: random.pick(&mixes),
        longest: random.pick(&[2, 4, 8, 16]),
        ranges: 3 + random.below(5),
        no_bytes: random.pick(&[0, 3, 3, 6, 30]),
    }
}

/// A shape for any window.
pub fn any_shape(random: &mut Random) -> Shape {
    let lines = match random.below(4) {
        0 => 1 + random.below(4) as u16,
        1 => random.pick(&[1, 2, 63, 64]),
        _ => 1 + random.below(usize::from(MAX_LINES)) as u16,
    };
    Shape {
        lines,
        events: random.below(40),
        longest: random.pick(&[1, 8, 64, 130, 4096]),
        ranges: random.below(8),
        ..small_shape(random)
    }
}

/// A shape for stores of several words, in small windows.
pub fn torn_shape(random: &mut Random) -> Shape {
    Shape {
        lines: 1 + random.below(3) as u16,
        events: 4 + random.below(21),
        mix: Mix::WITHIN,
        longest: random.pick(&[9, 12, 16, 24, 24]),
        ranges: 2 + random.below(4),
        no_bytes: random.pick(&[0, 3, 3, 6, 20]),
    }
}
