//! The direct way: no crash image is listed.
//!
//! Each line keeps the last store of each of its bytes, with its epoch, and its closings. A closing
//! is a write-back of the line and the first fence after it: from that fence on, every piece of the
//! line older than that write-back survives in every image, and the persist intervals of its bytes
//! are closed. Of several write-backs before one fence the last is the closing's; a persist interval
//! names the first one after the byte's last store, which is found among all of the line.
//!
//! - A byte may be lost at the present moment if its last store is younger than the write-back of
//!   the line's latest closing.
//! - A byte `b` may be kept and a byte `a` lost, in one line, if `b`'s last store is older than
//!   `a`'s: the moment is `b`'s last store, when `a`'s piece has not happened. If one store is the
//!   last of both, they must be in two words: just after that store its piece may be torn. If `b`'s
//!   last store is younger, `a`'s piece survives whole wherever any word of `b`'s does.
//! - In two lines, the earliest moment that can keep `b` is `b`'s last store. There `a` may be
//!   lost if the fence that makes its piece durable comes later, or never.

use crate::event::{Event, Range, Record, LINE, MAX_DEPTH, MAX_EVENTS, MAX_WINDOW, WORD};
use crate::exposure::Exposure;
use crate::finding::{Finding, Kind};
use crate::interval::{Epochs, Interval};
use crate::outcome::Totals;
use crate::Way;

/// Later than every event.
const NEVER: usize = usize::MAX;

/// A write-back of a line and the first fence after it, by event number.
#[derive(Clone, Copy, Debug)]
struct Closing {
    write_back: usize,
    fence: usize,
    /// The epoch that the fence begins.
    epoch: usize,
}

#[derive(Clone, Debug)]
struct Line {
    /// The last store of each byte, 0 for none.
    last: [usize; LINE],
    /// The epoch of the last store of each byte.
    opened: [usize; LINE],
    /// The last store of the line, 0 for none.
    newest: usize,
    /// The write-backs of the line, oldest first.
    write_backs: Vec<usize>,
    /// Oldest first; at most one for each fence.
    closings: Vec<Closing>,
}

impl Line {
    fn new() -> Line {
        Line {
            last: [0; LINE],
            opened: [0; LINE],
            newest: 0,
            write_backs: Vec::new(),
            closings: Vec::new(),
        }
    }

    /// The last write-back of the line, 0 for none.
    fn written_back(&self) -> usize {
        self.write_backs.last().copied().unwrap_or(0)
    }

    /// The first write-back of the line after this store, 0 for none.
    fn write_back_after(&self, store: usize) -> usize {
        let older = self.write_backs.partition_point(|&event| event < store);
        self.write_backs.get(older).copied().unwrap_or(0)
    }

    /// Pieces older than this event are durable now.
    fn durable_before(&self) -> usize {
        self.closings.last().map_or(0, |closing| closing.write_back)
    }

    /// The closing that makes the piece of this store durable.
    fn closing_for(&self, store: usize) -> Option<&Closing> {
        let older = |closing: &Closing| closing.write_back < store;
        self.closings.get(self.closings.partition_point(older))
    }

    /// The fence that makes the piece of this store durable.
    fn fence_for(&self, store: usize) -> usize {
        self.closing_for(store)
            .map_or(NEVER, |closing| closing.fence)
    }

    /// The persist interval of a byte, counted from the line's start.
    fn interval(&self, byte: usize) -> Interval {
        let (store, opened) = (self.last[byte], self.opened[byte]);
        if store == 0 {
            return Interval::None;
        }
        let write_back = self.write_back_after(store);
        match self.closing_for(store) {
            Some(closing) => Interval::Closed {
                from: opened,
                to: closing.epoch,
                store,
                write_back,
                fence: closing.fence,
            },
            None => Interval::Open {
                since: opened,
                store,
                write_back,
            },
        }
    }

    /// Its epochs alone.
    fn epochs(&self, byte: usize) -> Epochs {
        let (store, opened) = (self.last[byte], self.opened[byte]);
        if store == 0 {
            return Epochs::None;
        }
        match self.closing_for(store) {
            Some(closing) => Epochs::Closed(opened, closing.epoch),
            None => Epochs::Open(opened),
        }
    }

    /// The number of bytes whose interval is closed, and the sum of their exposures: the epoch of the
    /// closing less that of the last store.
    fn exposure(&self) -> (usize, usize) {
        let (mut count, mut sum) = (0, 0);
        // Bytes whose last store is younger than the last write-back that a fence followed are open.
        let durable = self.durable_before();
        for (&store, &opened) in self.last.iter().zip(&self.opened) {
            if (1..durable).contains(&store) {
                let closing = self.closing_for(store).expect("the last closing is later");
                count += 1;
                sum += closing.epoch - opened;
            }
        }
        (count, sum)
    }

    /// The lowest byte of the part whose last store is younger than the event.
    fn first_younger(&self, part: std::ops::Range<usize>, event: usize) -> Option<usize> {
        if self.newest <= event {
            return None;
        }
        part.into_iter().find(|&byte| self.last[byte] > event)
    }

    /// The youngest last store in the part, 0 for none.
    fn youngest(&self, part: std::ops::Range<usize>) -> usize {
        if part == (0..LINE) {
            return self.newest;
        }
        self.last[part].iter().copied().max().unwrap_or(0)
    }

    /// Whether a byte of the part that the store was the last to set is in another word than this
    /// byte of the line.
    fn in_another_word(&self, part: std::ops::Range<usize>, store: usize, byte: usize) -> bool {
        let mut set = part.into_iter().filter(|&other| self.last[other] == store);
        set.any(|other| other / WORD != byte / WORD)
    }

    /// The warning that a write-back of the line would get now.
    fn warning(&self) -> Option<Kind> {
        if self.newest == 0 {
            Some(Kind::Clean)
        } else if self.newest < self.written_back() {
            Some(Kind::WrittenTwice)
        } else {
            None
        }
    }
}

/// A run: events are given singly, each gets its finding.
#[derive(Clone, Debug)]
pub struct Run {
    lines: Vec<Line>,
    events: usize,
    fences: usize,
    found: usize,
    depth: usize,
    /// The outermost begin of the open transaction.
    begin: usize,
    /// The last store of some byte, 0 for none.
    last_store: usize,
    /// The last log event of each byte, 0 for none.
    logged: Vec<usize>,
    /// Lines written back since the last fence.
    pending: Vec<usize>,
}

impl Way for Run {
    fn fresh(lines: u16) -> Run {
        Run {
            lines: vec![Line::new(); usize::from(lines)],
            events: 0,
            fences: 0,
            found: 0,
            depth: 0,
            begin: 0,
            last_store: 0,
            logged: vec![0; MAX_WINDOW],
            pending: Vec::new(),
        }
    }

    fn window(&self) -> usize {
        self.lines.len() * LINE
    }

    fn give(&mut self, record: &Record) -> Result<Finding, u8> {
        self.refuse(record.event)?;
        self.events += 1;
        let finding = match record.event {
            Event::Store(a) => self.store(a),
            Event::WriteBack(a) => self.write_back(a),
            Event::Fence => self.fence(),
            Event::Begin => self.begin(),
            Event::Log(a) => self.log(a),
            Event::End => self.end(),
            Event::Persisted(a) => self.persisted(a),
            Event::Ordered(a, b) => self.ordered(a, b),
        };
        if finding.kind != Kind::None {
            self.found += 1;
        }
        Ok(finding.at(record.site))
    }

    fn interval(&self, byte: usize) -> Interval {
        self.lines[byte / LINE].interval(byte % LINE)
    }

    fn epochs(&self, byte: usize) -> Epochs {
        self.lines[byte / LINE].epochs(byte % LINE)
    }

    fn close(&self) -> Result<Totals, u8> {
        if self.depth > 0 {
            return Err(13);
        }
        Ok(Totals {
            events: self.events,
            fences: self.fences,
            found: self.found,
        })
    }

    fn exposure(&self) -> Result<Exposure, u8> {
        let (mut divisor, mut sum) = (0, 0);
        for (count, exposures) in self.lines.iter().map(Line::exposure) {
            divisor += count;
            sum += exposures;
        }
        if divisor == 0 {
            return Err(17);
        }
        Ok(Exposure {
            quotient: sum / divisor,
            remainder: sum % divisor,
            divisor,
        })
    }
}

impl Run {
    /// Refusals 18 and 10 to 12, in this order.
    fn refuse(&self, event: Event) -> Result<(), u8> {
        if matches!(event, Event::Ordered(a, b) if share_a_byte(a, b)) {
            return Err(18);
        }
        if self.events == MAX_EVENTS {
            return Err(10);
        }
        match event {
            Event::Log(_) | Event::End if self.depth == 0 => Err(11),
            Event::Begin if self.depth == MAX_DEPTH => Err(12),
            _ => Ok(()),
        }
    }

    fn store(&mut self, a: Range) -> Finding {
        for number in a.lines() {
            let (line, part) = (&mut self.lines[number], part_of(a, number));
            line.last[part.clone()].fill(self.events);
            line.opened[part].fill(self.fences);
            line.newest = self.events;
        }
        if a.has_bytes() {
            self.last_store = self.events;
        }
        if self.depth == 0 {
            return Finding::of(Kind::None);
        }
        match a.bytes().find(|&byte| self.logged[byte] < self.begin) {
            Some(byte) => Finding::naming(Kind::Unlogged, byte),
            None => Finding::of(Kind::None),
        }
    }

    fn write_back(&mut self, a: Range) -> Finding {
        let mut finding = Finding::of(Kind::None);
        for line in a.lines() {
            if let (Kind::None, Some(kind)) = (finding.kind, self.lines[line].warning()) {
                finding = Finding::naming(kind, line * LINE);
            }
            self.lines[line].write_backs.push(self.events);
            self.pending.push(line);
        }
        finding
    }

    fn fence(&mut self) -> Finding {
        self.fences += 1;
        for line in std::mem::take(&mut self.pending) {
            let line = &mut self.lines[line];
            let closing = Closing {
                write_back: line.written_back(),
                fence: self.events,
                epoch: self.fences,
            };
            // A line that is pending twice gets one closing.
            if line.durable_before() < closing.write_back {
                line.closings.push(closing);
            }
        }
        Finding::of(Kind::None)
    }

    fn begin(&mut self) -> Finding {
        if self.depth == 0 {
            self.begin = self.events;
        }
        self.depth += 1;
        Finding::of(Kind::None)
    }

    fn log(&mut self, a: Range) -> Finding {
        let again = a.bytes().find(|&byte| self.logged[byte] > self.begin);
        self.logged[a.bytes()].fill(self.events);
        match again {
            Some(byte) => Finding::naming(Kind::LoggedTwice, byte),
            None => Finding::of(Kind::None),
        }
    }

    fn end(&mut self) -> Finding {
        self.depth -= 1;
        if self.depth > 0 {
            return Finding::of(Kind::None);
        }
        if self.last_store < self.begin {
            return Finding::of(Kind::Empty);
        }
        let window = 0..self.lines.len();
        let broken = window.into_iter().find_map(|number| {
            let line = &self.lines[number];
            let byte = line.first_younger(0..LINE, line.durable_before().max(self.begin))?;
            Some((number, byte))
        });
        self.durable(broken)
    }

    fn persisted(&self, a: Range) -> Finding {
        let broken = a.lines().find_map(|number| {
            let line = &self.lines[number];
            let byte = line.first_younger(part_of(a, number), line.durable_before())?;
            Some((number, byte))
        });
        self.durable(broken)
    }

    /// The finding of a promise of durability, from its lowest broken byte.
    fn durable(&self, broken: Option<(usize, usize)>) -> Finding {
        match broken {
            Some((line, byte)) => {
                let store = self.lines[line].last[byte];
                Finding::lost(line * LINE + byte, self.events, store)
            }
            None => Finding::of(Kind::Holds),
        }
    }

    fn ordered(&self, a: Range, b: Range) -> Finding {
        let Some(kept) = self.lowest_kept(a, b) else {
            return Finding::of(Kind::Holds);
        };
        let moment = self.last(kept);
        let lost = a
            .bytes()
            .find(|&byte| self.may_be_lost(byte, kept))
            .expect("the kept byte has a lost partner");
        Finding::out_of_order(lost, kept, moment, self.last(lost))
    }

    fn last(&self, byte: usize) -> usize {
        self.lines[byte / LINE].last[byte % LINE]
    }

    /// Whether an image can keep the second byte and lose the first.
    fn may_be_lost(&self, lost: usize, kept: usize) -> bool {
        let (store, moment) = (self.last(lost), self.last(kept));
        if store == 0 {
            false
        } else if lost / LINE == kept / LINE {
            store > moment || store == moment && lost / WORD != kept / WORD
        } else {
            self.lines[lost / LINE].fence_for(store) > moment
        }
    }

    /// The lowest byte of B that an image can keep while a byte of A is lost.
    ///
    /// In each line of A the youngest last store decides, since it is durable last. So all bytes
    /// of one line of B have the same limit: those stored to before it have a lost partner. So has
    /// one that the youngest last store of A in its own line set, if A has another word of it.
    fn lowest_kept(&self, a: Range, b: Range) -> Option<usize> {
        let youngest = |line: usize| self.lines[line].youngest(part_of(a, line));
        let fences: Vec<(usize, usize)> = a
            .lines()
            .filter(|&line| youngest(line) > 0)
            .map(|line| (line, self.lines[line].fence_for(youngest(line))))
            .collect();
        let limit = |line: usize| {
            let elsewhere = fences.iter().filter(|&&(other, _)| other != line);
            let here = if a.touches(line) { youngest(line) } else { 0 };
            elsewhere.map(|&(_, fence)| fence).fold(here, usize::max)
        };
        b.lines().find_map(|number| {
            let (limit, line) = (limit(number), &self.lines[number]);
            let (here, part) = (youngest(number), part_of(a, number));
            let torn = |byte| {
                here > 0
                    && line.last[byte] == here
                    && line.in_another_word(part.clone(), here, byte)
            };
            part_of(b, number)
                .find(|&byte| (1..limit).contains(&line.last[byte]) || torn(byte))
                .map(|byte| number * LINE + byte)
        })
    }
}

/// Whether both ranges have some byte: the later start is before the earlier end.
fn share_a_byte(a: Range, b: Range) -> bool {
    usize::from(a.address.max(b.address)) < a.end().min(b.end())
}

/// The bytes of a line that a range covers, counted from the line's start.
fn part_of(range: Range, line: usize) -> std::ops::Range<usize> {
    let start = line * LINE;
    let bytes = range.bytes();
    bytes.start.clamp(start, start + LINE) - start..bytes.end.clamp(start, start + LINE) - start
}
