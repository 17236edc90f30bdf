//! The same rules in plain Rust, not proved: what the judge is compared with and timed against.
//!
//! A first pass over the records checks every limit, so that a refused trace writes nothing. A second
//! one judges, with tables over the window's bytes and lines.

use crate::interval::COUNT;
use crate::judge::Answer;
use std::ops::Range;

/// Bytes of a line.
pub const LINE: usize = 64;
/// Bytes of a word, the part of a line in which a store is not torn.
const WORD: usize = 8;
/// Lines and bytes of the largest window.
const LINES: usize = 64;
const WINDOW: usize = LINES * LINE;
/// Bytes of a record, and of a finding.
pub const RECORD: usize = 12;
const TRAILER: usize = 16;
const LONGEST: usize = 65_536;
const DEEPEST: usize = 8;

/// An event, with the addresses of its ranges.
#[derive(Clone, Debug, PartialEq, Eq)]
pub enum Event {
    Store(Range<usize>),
    WriteBack(Range<usize>),
    Fence,
    Begin,
    Log(Range<usize>),
    End,
    Persisted(Range<usize>),
    /// The first range before the second.
    Ordered(Range<usize>, Range<usize>),
}

/// What an event gets; the site is added when it is written.
#[derive(Clone, Copy, Debug, Default, PartialEq, Eq)]
pub struct Finding {
    pub kind: u8,
    pub lost: u16,
    pub kept: u16,
    pub moment: u16,
    pub store: u16,
}

impl Finding {
    pub const NONE: Finding = Finding::of(0, 0);
    pub const HOLDS: Finding = Finding::of(1, 0);
    pub const EMPTY: Finding = Finding::of(8, 0);

    const fn of(kind: u8, lost: u16) -> Finding {
        Finding {
            kind,
            lost,
            kept: 0,
            moment: 0,
            store: 0,
        }
    }

    pub fn lost(byte: usize, moment: u16, store: u16) -> Finding {
        Finding {
            moment,
            store,
            ..Finding::of(2, byte as u16)
        }
    }

    pub fn out_of_order(lost: usize, kept: usize, moment: u16, store: u16) -> Finding {
        Finding {
            kept: kept as u16,
            moment,
            store,
            ..Finding::of(3, lost as u16)
        }
    }

    pub fn unlogged(byte: usize) -> Finding {
        Finding::of(4, byte as u16)
    }

    pub fn clean(line: usize) -> Finding {
        Finding::of(5, (line * LINE) as u16)
    }

    pub fn written_twice(line: usize) -> Finding {
        Finding::of(6, (line * LINE) as u16)
    }

    pub fn logged_twice(byte: usize) -> Finding {
        Finding::of(7, byte as u16)
    }

    fn write(&self, site: u16, place: &mut [u8]) {
        place[0] = self.kind;
        place[1] = 0;
        let fields = [self.lost, self.kept, self.moment, self.store, site];
        for (bytes, field) in place[2..].chunks_exact_mut(2).zip(fields) {
            bytes.copy_from_slice(&field.to_le_bytes());
        }
    }
}

/// The records of a trace that no limit refuses.
pub struct Records<'a> {
    pub lines: usize,
    bytes: &'a [u8],
}

/// Checks a whole trace: 1 to 5, 14; record by record 6, 7, 9, 18, 11 and 12; 13. No trace has the 65,536
/// records of 10.
pub fn open<'a>(trace: &'a [u8], area: &[u8]) -> Result<Records<'a>, Answer> {
    let records = open_trailer(trace).map_err(|number| refused(number, 0))?;
    if area.len() < records.bytes.len() {
        return Err(refused(14, 0));
    }
    let window = records.lines * LINE;
    let mut depth = 0;
    for (at, record) in records.bytes.chunks_exact(RECORD).enumerate() {
        check_record(record, window)
            .and_then(|()| check_depth(record[0], &mut depth))
            .map_err(|number| refused(number, at as u32 + 1))?;
    }
    if depth > 0 {
        return Err(refused(13, 0));
    }
    Ok(records)
}

impl Records<'_> {
    /// Gives each event in order to `judge_event` and writes its finding.
    pub fn judge_each(
        &self,
        area: &mut [u8],
        mut judge_event: impl FnMut(Event) -> Finding,
    ) -> Answer {
        let (mut fences, mut findings) = (0, 0);
        let places = area.chunks_exact_mut(RECORD);
        for (record, place) in self.bytes.chunks_exact(RECORD).zip(places) {
            let event = read_event(record);
            fences += u32::from(event == Event::Fence);
            let finding = judge_event(event);
            findings += u32::from(finding.kind != 0);
            finding.write(u16_at(record, 10), place);
        }
        Answer::Accepted {
            events: (self.bytes.len() / RECORD) as u32,
            fences,
            findings,
        }
    }
}

fn refused(number: u32, record: u32) -> Answer {
    Answer::Refused { number, record }
}

fn open_trailer(trace: &[u8]) -> Result<Records<'_>, u32> {
    if trace.len() < TRAILER {
        return Err(1);
    }
    if trace.len() > LONGEST {
        return Err(2);
    }
    let (front, trailer) = trace.split_at(trace.len() - TRAILER);
    if !trailer.starts_with(b"PTRA") {
        return Err(3);
    }
    let (offset, count) = (u32_at(trailer, 4), u32_at(trailer, 8));
    let (lines, zero) = (usize::from(u16_at(trailer, 12)), u16_at(trailer, 14));
    if !(1..=LINES).contains(&lines) || zero != 0 {
        return Err(4);
    }
    if u64::from(offset) + RECORD as u64 * u64::from(count) != front.len() as u64 {
        return Err(5);
    }
    Ok(Records {
        lines,
        bytes: &front[offset as usize..],
    })
}

/// Refusals 6, 7, 9 and 18.
fn check_record(record: &[u8], window: usize) -> Result<(), u32> {
    let used = match record[0] {
        3 | 4 | 6 => 0,
        1 | 2 | 5 | 7 => 1,
        8 => 2,
        _ => return Err(6),
    };
    let (ranges, lacking) = record[2..10].split_at(4 * used);
    if record[1] != 0 || lacking.iter().any(|&byte| byte != 0) {
        return Err(7);
    }
    if ranges
        .chunks_exact(4)
        .any(|range| range_at(range, 0).end > window)
    {
        return Err(9);
    }
    if used == 2 && share(&range_at(ranges, 0), &range_at(ranges, 4)) {
        return Err(18);
    }
    Ok(())
}

/// Whether a byte is in both ranges. With a range of no bytes the later start is never before the earlier end.
fn share(a: &Range<usize>, b: &Range<usize>) -> bool {
    a.start.max(b.start) < a.end.min(b.end)
}

/// Refusals 11 and 12.
fn check_depth(kind: u8, depth: &mut usize) -> Result<(), u32> {
    match kind {
        4 if *depth == DEEPEST => return Err(12),
        5 | 6 if *depth == 0 => return Err(11),
        4 => *depth += 1,
        6 => *depth -= 1,
        _ => {}
    }
    Ok(())
}

/// The event of a record that has been checked.
fn read_event(record: &[u8]) -> Event {
    let a = range_at(record, 2);
    match record[0] {
        1 => Event::Store(a),
        2 => Event::WriteBack(a),
        3 => Event::Fence,
        4 => Event::Begin,
        5 => Event::Log(a),
        6 => Event::End,
        7 => Event::Persisted(a),
        _ => Event::Ordered(a, range_at(record, 6)),
    }
}

fn range_at(bytes: &[u8], at: usize) -> Range<usize> {
    let start = usize::from(u16_at(bytes, at));
    start..start + usize::from(u16_at(bytes, at + 2))
}

fn u16_at(bytes: &[u8], at: usize) -> u16 {
    u16::from_le_bytes([bytes[at], bytes[at + 1]])
}

fn u32_at(bytes: &[u8], at: usize) -> u32 {
    u32::from(u16_at(bytes, at)) | u32::from(u16_at(bytes, at + 2)) << 16
}

/// The lines that hold a byte of the range: none for a range of no bytes.
pub fn lines_of(range: &Range<usize>) -> Range<usize> {
    if range.is_empty() {
        return 0..0;
    }
    range.start / LINE..(range.end - 1) / LINE + 1
}

/// Judges a trace into a findings area.
pub fn judge(trace: &[u8], area: &mut [u8]) -> Answer {
    match open(trace, area) {
        Ok(records) => {
            let mut run = Run::new(records.lines);
            records.judge_each(area, |event| run.give(event))
        }
        Err(refusal) => refusal,
    }
}

/// The mean exposure of a trace. The answer is the refusal's number or 0, the record's number, and
/// quotient, remainder and divisor.
pub fn exposure(trace: &[u8], answer: &mut [u32; 5]) {
    // A trace is longer than its findings, so it stands for an area of enough room.
    *answer = match open(trace, trace) {
        Ok(records) => mean(&records),
        Err(Answer::Refused { number, record }) => [number, record, 0, 0, 0],
        Err(accepted) => panic!("opening a trace answered {accepted:?}"),
    };
}

/// The mean exposure of records, or 17. Only stores, write-backs and fences count, and are numbered here.
fn mean(records: &Records) -> [u32; 5] {
    let mut run = Run::new(records.lines);
    // The count of fences by each event.
    let mut epochs = vec![0];
    for record in records.bytes.chunks_exact(RECORD) {
        let event = read_event(record);
        if let Event::Store(_) | Event::WriteBack(_) | Event::Fence = event {
            let fences = epochs[usize::from(run.event)] + u32::from(event == Event::Fence);
            epochs.push(fences);
            run.give(event);
        }
    }
    let (mut count, mut sum) = (0, 0);
    let window = 0..records.lines * LINE;
    let bytes = run.stored[window.clone()].iter().zip(&run.durable[window]);
    for (&stored, &durable) in bytes {
        if stored != 0 && durable != OPEN {
            count += 1;
            sum += epochs[usize::from(durable)] - epochs[usize::from(stored)];
        }
    }
    match count {
        0 => [17, 0, 0, 0, 0],
        _ => [0, 0, sum / count, sum % count, count],
    }
}

/// The persist interval of a byte after a trace, in the numbers that `interval::COUNT` has.
pub fn interval(trace: &[u8], byte: u16, answer: &mut [u32; COUNT]) {
    *answer = [0; COUNT];
    let byte = usize::from(byte);
    // A trace is longer than its findings, so it stands for an area of enough room.
    match open(trace, trace) {
        Ok(records) if byte < records.lines * LINE => {
            answer[2..].copy_from_slice(&numbers_of_interval(&records, byte));
        }
        Ok(_) => answer[0] = 9,
        Err(Answer::Refused { number, record }) => [answer[0], answer[1]] = [number, record],
        Err(accepted) => panic!("opening a trace answered {accepted:?}"),
    }
}

/// State, epochs, events and sites, from one pass over the records.
fn numbers_of_interval(records: &Records, byte: usize) -> [u32; 9] {
    let none = Named::default();
    let (mut store, mut back, mut fence) = (none, none, none);
    let mut epoch = 0;
    for (record, event) in records.bytes.chunks_exact(RECORD).zip(1..) {
        let kind = read_event(record);
        epoch += u32::from(kind == Event::Fence);
        let named = Named {
            event,
            epoch,
            site: u32::from(u16_at(record, 10)),
        };
        match kind {
            Event::Store(a) if a.contains(&byte) => (store, back, fence) = (named, none, none),
            // Before the first store there is nothing to write back, and after it the first counts.
            _ if store.event == 0 => {}
            Event::WriteBack(a) if back.event == 0 && lines_of(&a).contains(&(byte / LINE)) => {
                back = named;
            }
            Event::Fence if back.event != 0 && fence.event == 0 => fence = named,
            _ => {}
        }
    }
    let state = u32::from(store.event != 0) + u32::from(fence.event != 0);
    [
        state,
        store.epoch,
        fence.epoch,
        store.event,
        back.event,
        fence.event,
        store.site,
        back.site,
        fence.site,
    ]
}

/// An event that an interval names, with the count of fences by it; 0 for none.
#[derive(Clone, Copy, Default)]
struct Named {
    event: u32,
    epoch: u32,
    site: u32,
}

/// The place of the first entry that fits. Whole lines are passed over without a branch for each entry, so
/// that this is vectorised.
fn first(entries: &[u16], fits: impl Fn(u16) -> bool) -> Option<usize> {
    let any = |line: &[u16]| line.iter().fold(false, |any, &entry| any | fits(entry));
    let line = entries.chunks(LINE).position(any)?;
    let rest = &entries[line * LINE..];
    let at = rest.iter().position(|&entry| fits(entry))?;
    Some(line * LINE + at)
}

/// Makes the stores of a line that are older than its write-back durable by this fence. Every entry is
/// written, so that this is vectorised.
fn close(durable: &mut [u16], stored: &[u16], written: u16, fence: u16) {
    for (durable, &stored) in durable.iter_mut().zip(stored) {
        let closes = (*durable == OPEN) & (stored < written);
        *durable = if closes { fence } else { *durable };
    }
}

/// The value of `durable` for a byte whose last store is not durable.
const OPEN: u16 = u16::MAX;

/// What the events so far say. Entries are event numbers, 0 for no such event.
struct Run {
    lines: usize,
    event: u16,
    /// Of each byte: its last store.
    stored: [u16; WINDOW],
    /// Of each byte: the fence that made its last store durable, or `OPEN`.
    durable: [u16; WINDOW],
    /// Of each byte: the outermost begin of the last transaction that logged it.
    logged: [u16; WINDOW],
    /// Of each line: the last store to it.
    line_stored: [u16; LINES],
    /// Of each line: its last write-back that followed a store to it.
    line_written: [u16; LINES],
    /// The lines that the next fence makes durable up to their last write-back.
    written: Vec<usize>,
    last_fence: u16,
    /// The last store of at least one byte.
    last_store: u16,
    depth: usize,
    /// The outermost begin of the transaction that is open, if any is.
    begin: u16,
}

impl Run {
    fn new(lines: usize) -> Run {
        Run {
            lines,
            event: 0,
            stored: [0; WINDOW],
            durable: [0; WINDOW],
            logged: [0; WINDOW],
            line_stored: [0; LINES],
            line_written: [0; LINES],
            written: Vec::with_capacity(lines),
            last_fence: 0,
            last_store: 0,
            depth: 0,
            begin: 0,
        }
    }

    fn give(&mut self, event: Event) -> Finding {
        self.event += 1;
        match event {
            Event::Store(a) => self.store(a),
            Event::WriteBack(a) => self.write_back(a),
            Event::Fence => self.fence(),
            Event::Begin => self.begin(),
            Event::Log(a) => self.log(a),
            Event::End => self.end(),
            Event::Persisted(a) => self.persisted(a),
            Event::Ordered(a, b) => self.ordered(a, b),
        }
    }

    fn store(&mut self, a: Range<usize>) -> Finding {
        if a.is_empty() {
            return Finding::NONE;
        }
        self.stored[a.clone()].fill(self.event);
        self.durable[a.clone()].fill(OPEN);
        self.line_stored[lines_of(&a)].fill(self.event);
        self.last_store = self.event;
        if self.depth == 0 {
            return Finding::NONE;
        }
        let begin = self.begin;
        let unlogged = first(&self.logged[a.clone()], |log| log != begin);
        unlogged.map_or(Finding::NONE, |at| Finding::unlogged(a.start + at))
    }

    fn write_back(&mut self, a: Range<usize>) -> Finding {
        let mut finding = Finding::NONE;
        for line in lines_of(&a) {
            if self.line_stored[line] > self.line_written[line] {
                // A line written back since the last fence is in the list already.
                if self.line_written[line] <= self.last_fence {
                    self.written.push(line);
                }
                self.line_written[line] = self.event;
            } else if finding == Finding::NONE {
                finding = match self.line_stored[line] {
                    0 => Finding::clean(line),
                    _ => Finding::written_twice(line),
                };
            }
        }
        finding
    }

    fn fence(&mut self) -> Finding {
        self.last_fence = self.event;
        for line in self.written.drain(..) {
            let bytes = line * LINE..(line + 1) * LINE;
            let (written, stored) = (self.line_written[line], &self.stored[bytes.clone()]);
            close(&mut self.durable[bytes], stored, written, self.event);
        }
        Finding::NONE
    }

    fn begin(&mut self) -> Finding {
        if self.depth == 0 {
            self.begin = self.event;
        }
        self.depth += 1;
        Finding::NONE
    }

    fn log(&mut self, a: Range<usize>) -> Finding {
        let begin = self.begin;
        let logged = &mut self.logged[a.clone()];
        let twice = first(logged, |log| log == begin);
        logged.fill(begin);
        twice.map_or(Finding::NONE, |at| Finding::logged_twice(a.start + at))
    }

    fn end(&mut self) -> Finding {
        self.depth -= 1;
        if self.depth > 0 {
            return Finding::NONE;
        }
        if self.last_store < self.begin {
            return Finding::EMPTY;
        }
        for line in (0..self.lines).filter(|&line| self.line_stored[line] > self.begin) {
            let mut bytes = line * LINE..(line + 1) * LINE;
            if first(&self.durable[bytes.clone()], |durable| durable == OPEN).is_none() {
                continue;
            }
            let lost = |&byte: &usize| self.durable[byte] == OPEN && self.stored[byte] > self.begin;
            if let Some(byte) = bytes.find(lost) {
                return self.lost(byte);
            }
        }
        Finding::HOLDS
    }

    fn persisted(&self, a: Range<usize>) -> Finding {
        let open = first(&self.durable[a.clone()], |durable| durable == OPEN);
        open.map_or(Finding::HOLDS, |at| self.lost(a.start + at))
    }

    fn lost(&self, byte: usize) -> Finding {
        Finding::lost(byte, self.event, self.stored[byte])
    }

    /// In one word a byte is lost while another is kept if its store is the later one. In two words of one
    /// line it is also if one store set both. In two lines it is if it is not yet durable when the other is
    /// stored.
    fn ordered(&self, a: Range<usize>, b: Range<usize>) -> Finding {
        let (stored, durable) = (&self.stored[a.clone()], &self.durable[a.clone()]);
        let mut broken = None;
        'pairs: for kept in b {
            let moment = self.stored[kept];
            if moment == 0 {
                continue;
            }
            for (lost, (&stored, &durable)) in a.clone().zip(stored.iter().zip(durable)) {
                // Below a word's length in one word, below a line's in one line.
                let apart = lost ^ kept;
                let torn = u16::from(apart >= WORD);
                let safe_from = if apart < LINE { stored + torn } else { durable };
                if safe_from > moment {
                    broken = Some((lost, kept));
                    break 'pairs;
                }
            }
        }
        broken.map_or(Finding::HOLDS, |(lost, kept)| {
            Finding::out_of_order(lost, kept, self.stored[kept], self.stored[lost])
        })
    }
}

#[cfg(test)]
pub mod tests {
    use super::*;
    use crate::asking::{reference_interval, some_byte};
    use crate::differential::answer_of;
    use crate::{no_bytes, shared};
    use reference::area_after;
    use reference::random::{any_shape, damaged, small_shape, torn_shape, valid, Random};
    use reference::trace::{assemble, raw_record, MAX_TRACE};
    use reference::Event as Read;

    /// Whether two bytes that one store set on one line are kept or lost together, by the address of the
    /// store.
    type Together = fn(usize, usize, usize) -> bool;

    /// Judges with the rule that a store on one line is kept or lost whole.
    pub fn judge_whole(trace: &[u8], area: &mut [u8]) -> Answer {
        judge_by(trace, area, |_, _, _| true)
    }

    /// Judges with words that count from the store's start.
    pub fn judge_from_start(trace: &[u8], area: &mut [u8]) -> Answer {
        judge_by(trace, area, |start, one, other| {
            (one - start) / WORD == (other - start) / WORD
        })
    }

    /// Judges, with another rule for two bytes that one store set on one line.
    fn judge_by(trace: &[u8], area: &mut [u8], together: Together) -> Answer {
        let records = match open(trace, area) {
            Ok(records) => records,
            Err(refusal) => return refusal,
        };
        let mut run = Run::new(records.lines);
        let mut starts = [0; WINDOW];
        records.judge_each(area, |event| match event {
            Event::Ordered(a, b) => {
                run.event += 1;
                ordered_by(&run, a, b, |one, other| together(starts[one], one, other))
            }
            event => {
                if let Event::Store(a) = &event {
                    starts[a.clone()].fill(a.start);
                }
                run.give(event)
            }
        })
    }

    fn ordered_by(
        run: &Run,
        a: Range<usize>,
        b: Range<usize>,
        together: impl Fn(usize, usize) -> bool,
    ) -> Finding {
        for kept in b.filter(|&byte| run.stored[byte] > 0) {
            let moment = run.stored[kept];
            let lost = a.clone().find(|&lost| {
                let store = run.stored[lost];
                if lost / LINE != kept / LINE {
                    run.durable[lost] > moment
                } else {
                    store > moment || store == moment && !together(lost, kept)
                }
            });
            if let Some(lost) = lost {
                return Finding::out_of_order(lost, kept, moment, run.stored[lost]);
            }
        }
        Finding::HOLDS
    }

    /// With words where they are, the loop of the wrong judges is right.
    #[test]
    fn only_the_words_of_wrong_judges_are_wrong() {
        let mut random = Random::new(13);
        let mut differ = [0; 2];
        for _ in 0..3_000 {
            let shape = torn_shape(&mut random);
            let trace = valid(&mut random, &shape);
            let given = |judge: &dyn Fn(&[u8], &mut [u8]) -> Answer| {
                let mut area = vec![0; trace.len()];
                (judge(&trace, &mut area), area)
            };
            let expected = given(&judge);
            let aligned: Together = |_, one, other| one / WORD == other / WORD;
            assert!(given(&|trace, area| judge_by(trace, area, aligned)) == expected);
            differ[0] += u32::from(given(&judge_whole) != expected);
            differ[1] += u32::from(given(&judge_from_start) != expected);
        }
        println!("of 3000 traces {differ:?} judged otherwise");
        assert!(differ.iter().all(|&count| count > 300), "{differ:?}");
    }

    /// A trace of a small or of any shape, or with torn stores; one in three is damaged, one in four gets ranges of
    /// no bytes, and one in eight those of `shared`.
    pub fn random_trace(random: &mut Random) -> Vec<u8> {
        let shape = match random.below(3) {
            0 => small_shape(random),
            1 => torn_shape(random),
            _ => any_shape(random),
        };
        let mut trace = match random.below(3) {
            0 => damaged(random, &shape),
            _ => valid(random, &shape),
        };
        if random.chance(1, 4) {
            no_bytes::put_some(random, &mut trace);
        }
        if random.chance(1, 8) {
            shared::put_some(random, &mut trace);
        }
        trace
    }

    /// A trace of these kinds with their ranges A and B, each an address and a length.
    fn trace_of(lines: u16, records: &[(u8, [u16; 4])]) -> Vec<u8> {
        let record = |&(kind, [a, a_length, b, b_length]): &(u8, [u16; 4])| {
            let a = reference::Range::new(a, a_length);
            let b = reference::Range::new(b, b_length);
            raw_record(kind, 0, a, b, 0)
        };
        let records: Vec<_> = records.iter().map(record).collect();
        assemble(lines, &[], &records)
    }

    /// The first five numbers of each finding, or the refusal.
    fn findings(
        judge: fn(&[u8], &mut [u8]) -> Answer,
        trace: &[u8],
    ) -> Result<Vec<[u16; 5]>, Answer> {
        let mut area = vec![0; trace.len()];
        match judge(trace, &mut area) {
            Answer::Accepted { events, .. } => {
                area.truncate(RECORD * events as usize);
                let numbers = |finding: &[u8]| [0, 2, 4, 6, 8].map(|at| u16_at(finding, at));
                Ok(area.chunks_exact(RECORD).map(numbers).collect())
            }
            refused => Err(refused),
        }
    }

    /// Expects these findings of plain and of the checker by ranges.
    fn expect(trace: &[u8], expected: Result<Vec<[u16; 5]>, Answer>) {
        for judge in [judge, crate::ranges::judge] {
            assert_eq!(findings(judge, trace), expected, "{trace:?}");
        }
    }

    /// Expects, in a window of two lines, the finding beside each record.
    fn expect_each(records: &[(u8, [u16; 4], [u16; 5])]) {
        let given: Vec<_> = records.iter().map(|record| (record.0, record.1)).collect();
        let expected = records.iter().map(|record| record.2).collect();
        expect(&trace_of(2, &given), Ok(expected));
    }

    const NONE: [u16; 5] = [0; 5];
    const HOLDS: [u16; 5] = [1, 0, 0, 0, 0];
    const EMPTY: [u16; 5] = [8, 0, 0, 0, 0];

    #[test]
    fn no_bytes_warn_of_nothing_and_hold() {
        for address in [0, 4, 63, 64, 127, 128] {
            let (a, stored) = ([address, 0, 0, 0], [0, 8, 0, 0]);
            let records = [
                (Read::WRITE_BACK, a, NONE),
                (Read::STORE, a, NONE),
                (Read::STORE, stored, NONE),
                (Read::PERSISTED, a, HOLDS),
                (Read::ORDERED, [address, 0, 0, 8], HOLDS),
                (Read::ORDERED, [0, 8, address, 0], HOLDS),
                (Read::ORDERED, [address, 0, address, 0], HOLDS),
                (Read::WRITE_BACK, a, NONE),
                (Read::FENCE, [0; 4], NONE),
                (Read::PERSISTED, stored, [2, 0, 0, 10, 3]),
            ];
            expect_each(&records);
        }
    }

    #[test]
    fn no_bytes_change_nothing_in_a_transaction() {
        for address in [0, 4, 8, 64, 128] {
            let (a, stored) = ([address, 0, 0, 0], [0, 8, 0, 0]);
            let records = [
                (Read::BEGIN, [0; 4], NONE),
                (Read::STORE, a, NONE),
                (Read::BEGIN, [0; 4], NONE),
                (Read::LOG, a, NONE),
                (Read::END, [0; 4], NONE),
                (Read::END, [0; 4], EMPTY),
                (Read::BEGIN, [0; 4], NONE),
                (Read::LOG, a, NONE),
                (Read::LOG, stored, NONE),
                (Read::LOG, a, NONE),
                (Read::STORE, stored, NONE),
                (Read::STORE, a, NONE),
                (Read::WRITE_BACK, stored, NONE),
                (Read::FENCE, [0; 4], NONE),
                (Read::STORE, a, NONE),
                (Read::END, [0; 4], HOLDS),
            ];
            expect_each(&records);
        }
    }

    #[test]
    fn no_bytes_are_taken_up_to_the_size_of_the_window() {
        for lines in [1, 2, 63, 64] {
            let size = lines * LINE as u16;
            for (kind, finding) in [
                (Read::STORE, NONE),
                (Read::WRITE_BACK, NONE),
                (Read::LOG, NONE),
                (Read::PERSISTED, HOLDS),
                (Read::ORDERED, HOLDS),
            ] {
                let at = |address: u16| {
                    let record = (kind, [address, 0, 0, 0]);
                    trace_of(lines, &[(Read::BEGIN, [0; 4]), record, (Read::END, [0; 4])])
                };
                expect(&at(size), Ok(vec![NONE, finding, EMPTY]));
                for beyond in [size + 1, size + 64, u16::MAX] {
                    expect(&at(beyond), Err(refused(9, 2)));
                }
            }
            let order = |b| trace_of(lines, &[(Read::ORDERED, [0, 0, b, 0])]);
            expect(&order(size), Ok(vec![HOLDS]));
            expect(&order(size + 1), Err(refused(9, 1)));
        }
    }

    #[test]
    fn no_bytes_are_refused_as_others_are() {
        let alone = |kind, fields| trace_of(1, &[(kind, fields)]);
        expect(&alone(Read::LOG, [0; 4]), Err(refused(11, 1)));
        expect(&alone(Read::LOG, [65, 0, 0, 0]), Err(refused(9, 1)));
        expect(&alone(Read::STORE, [65, 0, 1, 0]), Err(refused(7, 1)));
        expect(&alone(9, [65, 0, 0, 0]), Err(refused(6, 1)));
    }

    /// A trace of a fence and an ordered, in a window of two lines.
    fn ordered(fields: [u16; 4]) -> Vec<u8> {
        trace_of(2, &[(Read::FENCE, [0; 4]), (Read::ORDERED, fields)])
    }

    #[test]
    fn ranges_that_share_a_byte_are_refused() {
        for fields in [
            [0, 8, 0, 8],
            [0, 8, 2, 3],
            [2, 3, 0, 8],
            [0, 8, 7, 8],
            [7, 8, 0, 8],
            [120, 8, 127, 1],
            [0, 128, 0, 128],
        ] {
            expect(&ordered(fields), Err(refused(18, 2)));
        }
        for fields in [
            [0, 8, 8, 8],
            [8, 8, 0, 8],
            [0, 64, 64, 64],
            [0, 8, 4, 0],
            [4, 0, 0, 8],
            [0, 0, 0, 8],
            [0, 8, 8, 0],
            [4, 0, 4, 0],
        ] {
            expect(&ordered(fields), Ok(vec![NONE, HOLDS]));
        }
    }

    #[test]
    fn a_shared_byte_is_refused_after_9_and_at_its_record() {
        for fields in [
            [0, 129, 0, 8],
            [0, 8, 0, 129],
            [121, 8, 121, 8],
            [8, u16::MAX, 0, 16],
        ] {
            expect(&ordered(fields), Err(refused(9, 2)));
        }
        let shared = (Read::ORDERED, [0, 8, 0, 8]);
        let end = (Read::END, [0; 4]);
        expect(&trace_of(2, &[shared, end]), Err(refused(18, 1)));
        expect(&trace_of(2, &[end, shared]), Err(refused(11, 1)));
        let begin = (Read::BEGIN, [0; 4]);
        expect(&trace_of(2, &[begin, shared]), Err(refused(18, 2)));
        let mut zero_set = trace_of(2, &[shared]);
        zero_set[1] = 1;
        expect(&zero_set, Err(refused(7, 1)));
    }

    #[test]
    fn exposures_and_intervals_are_refused_by_18_too() {
        let trace = ordered([0, 8, 7, 8]);
        let mut answer = [u32::MAX; 5];
        exposure(&trace, &mut answer);
        assert_eq!(answer, [18, 2, 0, 0, 0]);
        for byte in [0, 128] {
            let mut answer = [u32::MAX; COUNT];
            interval(&trace, byte, &mut answer);
            assert_eq!(answer, [18, 2, 0, 0, 0, 0, 0, 0, 0, 0, 0]);
        }
    }

    /// Compares answer and area; whether the trace was accepted.
    fn compare(trace: &[u8], area_len: usize) -> bool {
        let outcome = reference::judge(trace, area_len);
        let mut area = vec![0xa5; area_len];
        let answer = judge(trace, &mut area);
        assert_eq!(answer, answer_of(&outcome), "{trace:?}");
        assert_eq!(area, area_after(&outcome, area_len, 0xa5), "{trace:?}");
        matches!(answer, Answer::Accepted { .. })
    }

    #[test]
    fn answers_and_areas_are_those_of_the_reference() {
        let mut random = Random::new(11);
        let mut accepted = 0;
        for _ in 0..20_000 {
            let trace = random_trace(&mut random);
            let area_len = match random.below(10) {
                0 => random.below(trace.len() + 1),
                _ => trace.len() + random.below(30),
            };
            accepted += u32::from(compare(&trace, area_len));
        }
        assert!((10_000..19_000).contains(&accepted), "{accepted} accepted");
    }

    #[test]
    fn exposures_are_those_of_the_reference() {
        let mut random = Random::new(13);
        let mut given = 0;
        for _ in 0..20_000 {
            let trace = random_trace(&mut random);
            let mut answer = [u32::MAX; 5];
            exposure(&trace, &mut answer);
            let expected = match reference::exposure(&trace) {
                Ok(mean) => [0, 0, mean.quotient, mean.remainder, mean.divisor],
                Err(refusal) => [refusal.number.into(), refusal.record, 0, 0, 0],
            };
            assert_eq!(answer.map(|number| number as usize), expected, "{trace:?}");
            given += u32::from(answer[0] == 0);
        }
        assert!((3_000..17_000).contains(&given), "{given} exposures");
    }

    #[test]
    fn intervals_are_those_of_the_reference() {
        let mut random = Random::new(14);
        let mut states = [0; 3];
        for _ in 0..20_000 {
            let trace = random_trace(&mut random);
            let byte = some_byte(&mut random, &trace);
            let [mut answer, mut expected] = [[u32::MAX; COUNT]; 2];
            interval(&trace, byte, &mut answer);
            reference_interval(&trace, byte, &mut expected);
            assert_eq!(answer, expected, "{byte}: {trace:?}");
            if answer[0] == 0 {
                states[answer[2] as usize] += 1;
            }
        }
        assert!(states.iter().all(|&count| count > 500), "{states:?}");
    }

    #[test]
    fn traces_at_the_limits_of_length() {
        let mut random = Random::new(12);
        for length in [0, 1, 15, 16, MAX_TRACE, MAX_TRACE + 1] {
            let noise: Vec<u8> = (0..length).map(|_| random.bits() as u8).collect();
            compare(&noise, length);
        }
    }
}
