//! The enumerating way: the list of events is kept, and the crash images of each assertion are
//! listed one by one.
//!
//! Everything is read off the list each time it is needed; no state is carried from event to
//! event. Event numbers start at 1, and moment 0 is before all events.
//!
//! An image says of each line how many of its pieces survive whole, and which words are kept of the
//! oldest one that does not. Lines are independent, so whether an image loses a byte, or keeps one
//! and loses another, is read off the images of the one or two lines that hold them.

use crate::event::{Event, Range, Record, LINE, MAX_DEPTH, MAX_EVENTS, WORD};
use crate::exposure::Exposure;
use crate::finding::{Finding, Kind};
use crate::interval::{Epochs, Interval};
use crate::outcome::Totals;
use crate::{trace, Way};

/// The accepted events, oldest first.
#[derive(Clone, Debug)]
pub struct History {
    lines: usize,
    records: Vec<Record>,
    findings: Vec<Finding>,
}

/// A crash image, as far as the lines concerned go.
#[derive(Clone, Debug, PartialEq, Eq)]
struct Image {
    moment: usize,
    lines: Vec<Left>,
}

/// What a crash leaves of one line.
#[derive(Clone, Copy, Debug, PartialEq, Eq)]
struct Left {
    line: usize,
    /// How many of its pieces survive whole, oldest first.
    survivors: usize,
    /// The words kept of the oldest piece that does not survive whole; none if every piece does.
    words: Words,
}

/// Words of one line, a bit for each; the lowest bit is the word at the line's start.
type Words = u8;

/// The word that holds a byte.
fn word_of(address: usize) -> Words {
    1 << (address % LINE / WORD)
}

/// Every choice of these words, from none to all of them.
fn choices_of(words: Words) -> impl Iterator<Item = Words> {
    // The next number that has no other bits than these.
    let next = move |chosen: Words| (chosen | !words).wrapping_add(1) & words;
    std::iter::successors(Some(0), move |&chosen| {
        (chosen != words).then(|| next(chosen))
    })
}

/// A byte with a last store before the assertion.
#[derive(Clone, Copy, Debug)]
struct Stored {
    address: usize,
    /// The word that holds it.
    word: Words,
    /// The event number of the last store.
    store: usize,
    /// How many pieces of its line are older than the piece of the last store.
    older: usize,
}

impl Stored {
    fn line(&self) -> usize {
        self.address / LINE
    }
}

impl Left {
    /// The piece of the byte's last store survives, or the part of it in the byte's word.
    fn keeps(&self, byte: &Stored) -> bool {
        let in_word = self.words & byte.word != 0;
        byte.older < self.survivors || byte.older == self.survivors && in_word
    }

    /// Those of the bytes, all on this line, that are kept.
    fn kept_of(&self, bytes: &[Stored]) -> Places {
        let places = bytes.iter().enumerate();
        places.fold(0, |kept, (at, byte)| {
            kept | Places::from(self.keeps(byte)) << at
        })
    }

    /// Those of the bytes, all on this line, that are not kept.
    fn lost_of(&self, bytes: &[Stored]) -> Places {
        !self.kept_of(bytes) & Places::MAX >> (LINE - bytes.len())
    }
}

impl Image {
    fn keeps(&self, byte: &Stored) -> bool {
        let left = self.lines.iter().find(|left| left.line == byte.line());
        left.expect("the line is concerned").keeps(byte)
    }
}

/// Places in a list of bytes of one line, a bit for each; the lowest bit is the first byte.
type Places = u64;

impl Way for History {
    fn fresh(lines: u16) -> History {
        History {
            lines: usize::from(lines),
            records: Vec::new(),
            findings: Vec::new(),
        }
    }

    fn window(&self) -> usize {
        self.lines * LINE
    }

    fn give(&mut self, record: &Record) -> Result<Finding, u8> {
        if has_a_byte_in_both(record.event) {
            return Err(18);
        }
        let number = self.records.len() + 1;
        if number > MAX_EVENTS {
            return Err(10);
        }
        let open = self.open_before(number);
        match record.event {
            Event::Log(_) | Event::End if open == 0 => return Err(11),
            Event::Begin if open == MAX_DEPTH => return Err(12),
            _ => {}
        }
        self.records.push(*record);
        let finding = self.finding(number).at(record.site);
        self.findings.push(finding);
        Ok(finding)
    }

    fn interval(&self, byte: usize) -> Interval {
        let Some(store) = self.last_store(byte, self.records.len() + 1) else {
            return Interval::None;
        };
        let of_line = |event| is_write_back_of(event, byte / LINE);
        let write_back = self.first_after(store, of_line);
        let fence = write_back.and_then(|number| self.first_after(number, is_fence));
        self.interval_of(store, write_back.unwrap_or(0), fence)
    }

    fn epochs(&self, byte: usize) -> Epochs {
        let Some(store) = self.last_store(byte, self.records.len() + 1) else {
            return Epochs::None;
        };
        let opened = self.epoch(store);
        match self.closing_fence(byte / LINE, store) {
            Some(fence) => Epochs::Closed(opened, self.epoch(fence)),
            None => Epochs::Open(opened),
        }
    }

    fn close(&self) -> Result<Totals, u8> {
        if self.open_before(self.records.len() + 1) > 0 {
            return Err(13);
        }
        Ok(Totals {
            events: self.records.len(),
            fences: self.epoch(self.records.len()),
            found: self
                .findings
                .iter()
                .filter(|f| f.kind.number() != 0)
                .count(),
        })
    }

    /// By the words of the request, from the epochs of each byte of the window. If that takes few
    /// images, the intervals are read off them too, and have to be the same.
    fn exposure(&self) -> Result<Exposure, u8> {
        if self.effort_of_intervals() <= FEW_IMAGES {
            self.check_intervals();
        }
        let epochs = (0..self.window()).map(|byte| self.epochs(byte));
        let exposures: Vec<usize> = epochs.filter_map(exposure_of).collect();
        let (divisor, sum) = (exposures.len(), exposures.iter().sum::<usize>());
        if divisor == 0 {
            return Err(17);
        }
        // The first quotient that leaves a remainder below the divisor.
        let left = |&quotient: &usize| sum - quotient * divisor < divisor;
        let quotient = (0..).find(left).expect("the sum is finite");
        Ok(Exposure {
            quotient,
            remainder: sum - quotient * divisor,
            divisor,
        })
    }
}

impl History {
    /// The events 1 to `moment` with their numbers.
    fn up_to(&self, moment: usize) -> impl DoubleEndedIterator<Item = (usize, Event)> + '_ {
        let happened = self.records[..moment].iter().enumerate();
        happened.map(|(at, record)| (at + 1, record.event))
    }

    /// The events after `after`, up to `moment`, with their numbers.
    fn between(&self, after: usize, moment: usize) -> impl Iterator<Item = (usize, Event)> + '_ {
        let happened = self.records[after.min(moment)..moment].iter().enumerate();
        happened.map(move |(at, record)| (after + at + 1, record.event))
    }

    /// The count of fences by event `n`: the epoch of a store, or the epoch that a fence begins.
    fn epoch(&self, n: usize) -> usize {
        self.up_to(n).filter(|&(_, e)| is_fence(e)).count()
    }

    /// The first event after event `n` that fits.
    fn first_after(&self, n: usize, fits: impl Fn(Event) -> bool) -> Option<usize> {
        let mut later = self.between(n, self.records.len());
        let first = later.find(|&(_, event)| fits(event));
        first.map(|(number, _)| number)
    }

    /// The interval of a byte with these events; the write-back is 0 if there is none.
    fn interval_of(&self, store: usize, write_back: usize, fence: Option<usize>) -> Interval {
        let opened = self.epoch(store);
        match fence {
            Some(fence) => Interval::Closed {
                from: opened,
                to: self.epoch(fence),
                store,
                write_back,
                fence,
            },
            None => Interval::Open {
                since: opened,
                store,
                write_back,
            },
        }
    }

    /// The first fence after the first write-back, after the store, of the line.
    fn closing_fence(&self, line: usize, store: usize) -> Option<usize> {
        let mut later = self.between(store, self.records.len());
        later.find(|&(_, event)| is_write_back_of(event, line))?;
        let fence = later.find(|&(_, event)| is_fence(event));
        fence.map(|(number, _)| number)
    }

    fn finding(&self, n: usize) -> Finding {
        match self.records[n - 1].event {
            Event::Store(a) => self.store(n, a),
            Event::WriteBack(a) => self.write_back(n, a),
            Event::Fence | Event::Begin => Finding::of(Kind::None),
            Event::Log(a) => self.log(n, a),
            Event::End => self.end(n),
            Event::Persisted(a) => self.durable(n, &a.bytes().collect::<Vec<_>>()),
            Event::Ordered(a, b) => self.ordered(n, a, b),
        }
    }

    // Transactions and warnings.

    /// How many transactions are open just before event `n`.
    fn open_before(&self, n: usize) -> usize {
        let begins = self.up_to(n - 1).filter(|&(_, e)| e == Event::Begin);
        let ends = self.up_to(n - 1).filter(|&(_, e)| e == Event::End);
        begins.count() - ends.count()
    }

    /// The outermost begin of the transaction that is open just before event `n`.
    fn outermost_begin(&self, n: usize) -> Option<usize> {
        if self.open_before(n) == 0 {
            return None;
        }
        self.up_to(n - 1)
            .rev()
            .map(|(number, _)| number)
            .find(|&number| self.open_before(number) == 0)
    }

    /// Whether a log after event `begin` and before event `n` covers the byte.
    fn logged(&self, byte: usize, begin: usize, n: usize) -> bool {
        self.between(begin, n - 1)
            .any(|(_, event)| matches!(event, Event::Log(a) if a.covers(byte)))
    }

    fn store(&self, n: usize, a: Range) -> Finding {
        let Some(begin) = self.outermost_begin(n) else {
            return Finding::of(Kind::None);
        };
        match a.bytes().find(|&byte| !self.logged(byte, begin, n)) {
            Some(byte) => Finding::naming(Kind::Unlogged, byte),
            None => Finding::of(Kind::None),
        }
    }

    fn log(&self, n: usize, a: Range) -> Finding {
        let begin = self.outermost_begin(n).expect("a log is in a transaction");
        match a.bytes().find(|&byte| self.logged(byte, begin, n)) {
            Some(byte) => Finding::naming(Kind::LoggedTwice, byte),
            None => Finding::of(Kind::None),
        }
    }

    fn write_back(&self, n: usize, a: Range) -> Finding {
        for line in a.lines() {
            let start = line * LINE;
            if self.never_stored(line, n) {
                return Finding::naming(Kind::Clean, start);
            }
            if self.written_twice(line, n) {
                return Finding::naming(Kind::WrittenTwice, start);
            }
        }
        Finding::of(Kind::None)
    }

    /// No store before event `n` touches the line.
    fn never_stored(&self, line: usize, n: usize) -> bool {
        !self.up_to(n - 1).any(|(_, e)| is_store_to(e, line))
    }

    /// The line has been written back before event `n`, and not stored to since then.
    fn written_twice(&self, line: usize, n: usize) -> bool {
        let mut before = self.up_to(n - 1).rev();
        let last = before.find(|&(_, e)| is_write_back_of(e, line));
        match last {
            Some((w, _)) => !self.between(w, n - 1).any(|(_, e)| is_store_to(e, line)),
            None => false,
        }
    }

    fn end(&self, n: usize) -> Finding {
        if self.open_before(n) > 1 {
            return Finding::of(Kind::None);
        }
        let begin = self.outermost_begin(n).expect("an end is in a transaction");
        let covered = |byte: usize| {
            self.between(begin, n - 1)
                .any(|(_, event)| matches!(event, Event::Store(a) if a.covers(byte)))
        };
        let bytes: Vec<usize> = (0..self.window()).filter(|&b| covered(b)).collect();
        if bytes.is_empty() {
            return Finding::of(Kind::Empty);
        }
        self.durable(n, &bytes)
    }

    // Persist intervals by crash images.

    /// Each byte with a last store, and its persist interval. The fence is the first one at whose
    /// moment no allowed image loses the byte. The write-back is the first event such that none would
    /// lose it if a fence came right after that event.
    fn intervals_by_images(&self) -> Vec<(usize, Interval)> {
        let stored = self.stored(self.records.len() + 1, 0..self.window());
        let of_line = |bytes: &Vec<Stored>| self.intervals_of_line(bytes);
        stored.iter().flat_map(of_line).collect()
    }

    /// The same for the bytes of one line.
    fn intervals_of_line(&self, bytes: &[Stored]) -> Vec<(usize, Interval)> {
        let write_backs = self.write_backs_by_images(bytes);
        let fences = self.fences_by_images(bytes);
        let places = bytes.iter().enumerate();
        let interval = |(place, byte): (usize, &Stored)| {
            let write_back = write_backs[place].unwrap_or(0);
            let interval = self.interval_of(byte.store, write_back, fences[place]);
            (byte.address, interval)
        };
        places.map(interval).collect()
    }

    /// For each of the bytes, all on one line, the first event such that no image would lose it if a
    /// fence came right after that event.
    fn write_backs_by_images(&self, bytes: &[Stored]) -> Vec<Option<usize>> {
        let events = (1..=self.records.len()).map(|number| {
            let fenced = self.fenced_after(number);
            (number, fenced.lost_at(number + 1, bytes))
        });
        first_kept(bytes.len(), events)
    }

    /// For each of the bytes, all on one line, the first fence at whose moment no image loses it.
    fn fences_by_images(&self, bytes: &[Stored]) -> Vec<Option<usize>> {
        let events = self.up_to(self.records.len());
        let fences = events.filter(|&(_, event)| is_fence(event));
        let lost = fences.map(|(number, _)| (number, self.lost_at(number, bytes)));
        first_kept(bytes.len(), lost)
    }

    /// The events 1 to `moment`, and a fence.
    fn fenced_after(&self, moment: usize) -> History {
        let fence = Record {
            event: Event::Fence,
            site: 0,
        };
        History {
            lines: self.lines,
            records: [&self.records[..moment], &[fence]].concat(),
            findings: Vec::new(),
        }
    }

    /// Those of the bytes, all on one line, that an image of the moment loses.
    fn lost_at(&self, moment: usize, bytes: &[Stored]) -> Places {
        let choices = self.choices(bytes[0].line(), moment);
        choices
            .iter()
            .fold(0, |lost, left| lost | left.lost_of(bytes))
    }

    /// The intervals by images are those that the list gives.
    fn check_intervals(&self) {
        for (byte, interval) in self.intervals_by_images() {
            assert_eq!(interval, self.interval(byte), "byte {byte}");
        }
    }

    /// At least as many images as reading the intervals off them lists, times the bytes of a line.
    fn effort_of_intervals(&self) -> u64 {
        let stores = self
            .up_to(self.records.len())
            .filter_map(|(number, event)| match event {
                Event::Store(a) => Some((number, a)),
                _ => None,
            });
        let images = stores.flat_map(|(number, a)| {
            let of_line = move |line| 1 + (1 << self.words_of(line, number).count_ones());
            a.lines().map(of_line)
        });
        let images = images.fold(0, u64::saturating_add);
        // Those of each fence, and those of a fence after each event.
        let moments = self.epoch(self.records.len()) + self.records.len();
        let bytes = moments as u64 * LINE as u64;
        images.saturating_mul(bytes)
    }

    // Crash images.

    /// The pieces of a line by a moment, as the numbers of their stores.
    fn pieces(&self, line: usize, moment: usize) -> impl Iterator<Item = usize> + '_ {
        self.up_to(moment)
            .filter(move |&(_, event)| is_store_to(event, line))
            .map(|(number, _)| number)
    }

    /// The piece is followed by a write-back of its line and then by a fence, all by the moment.
    fn must_survive(&self, line: usize, store: usize, moment: usize) -> bool {
        let mut later = self.between(store, moment);
        later.any(|(_, event)| is_write_back_of(event, line))
            && later.any(|(_, event)| is_fence(event))
    }

    /// How many pieces of the line may survive whole at the moment.
    fn allowed(&self, line: usize, moment: usize) -> std::ops::RangeInclusive<usize> {
        let must = |&store: &usize| self.must_survive(line, store, moment);
        let least = self.pieces(line, moment).filter(must).count();
        least..=self.pieces(line, moment).count()
    }

    /// The words of the line that the store covers, each whole or in part.
    fn words_of(&self, line: usize, store: usize) -> Words {
        let Event::Store(a) = self.records[store - 1].event else {
            panic!("event {store} is no store");
        };
        let covered = bytes_of(line).filter(|&byte| a.covers(byte));
        covered.fold(0, |words, byte| words | word_of(byte))
    }

    /// How many pieces of the line may survive whole at the moment, and with each number the words
    /// of the oldest piece that then does not; none if every piece does.
    fn torn(&self, line: usize, moment: usize) -> impl Iterator<Item = (usize, Words)> + '_ {
        let pieces: Vec<usize> = self.pieces(line, moment).collect();
        self.allowed(line, moment).map(move |survivors| {
            let oldest = pieces.get(survivors);
            let words = oldest.map_or(0, |&store| self.words_of(line, store));
            (survivors, words)
        })
    }

    /// Everything that a crash at the moment may leave of the line.
    fn choices(&self, line: usize, moment: usize) -> Vec<Left> {
        let with_words = |(survivors, words)| {
            choices_of(words).map(move |words| Left {
                line,
                survivors,
                words,
            })
        };
        self.torn(line, moment).flat_map(with_words).collect()
    }

    /// Every line of the image is one that a crash at its moment may leave.
    fn allows(&self, image: &Image) -> bool {
        let may_be = |left: &Left| self.choices(left.line, image.moment).contains(left);
        image.lines.iter().all(may_be)
    }

    /// The last store of a byte before event `n`.
    fn last_store(&self, byte: usize, n: usize) -> Option<usize> {
        self.up_to(n - 1)
            .rev()
            .find(|&(_, event)| matches!(event, Event::Store(a) if a.covers(byte)))
            .map(|(number, _)| number)
    }

    /// Those of the bytes, lowest first, that have a last store before event `n`: a list for each
    /// line that has some.
    fn stored(&self, n: usize, bytes: impl Iterator<Item = usize>) -> Vec<Vec<Stored>> {
        let mut lists: Vec<Vec<Stored>> = Vec::new();
        for address in bytes {
            let Some(store) = self.last_store(address, n) else {
                continue;
            };
            let older = self.pieces(address / LINE, store - 1).count();
            let byte = Stored {
                address,
                word: word_of(address),
                store,
                older,
            };
            match lists.last_mut() {
                Some(list) if list[0].line() == byte.line() => list.push(byte),
                _ => lists.push(vec![byte]),
            }
        }
        lists
    }

    /// A promise that these bytes, lowest first, are durable at event `n`.
    fn durable(&self, n: usize, bytes: &[usize]) -> Finding {
        let stored = self.stored(n, bytes.iter().copied());
        let mut broken = vec![0; stored.len()];
        for (broken, bytes) in broken.iter_mut().zip(&stored) {
            for left in self.choices(bytes[0].line(), n) {
                *broken |= left.lost_of(bytes);
            }
        }
        let Some((list, place)) = lowest(&broken) else {
            return Finding::of(Kind::Holds);
        };
        let lost = &stored[list][place];
        let meant = self.image_meant(&lines_of(&[&stored]), n, lost, None);
        assert!(self.allows(&meant), "event {n}: image not allowed");
        assert!(!meant.keeps(lost), "event {n}: image keeps the lost byte");
        Finding::lost(lost.address, n, lost.store)
    }

    /// A promise that range A is durable before range B, as event `n`.
    fn ordered(&self, n: usize, a: Range, b: Range) -> Finding {
        let (firsts, seconds) = (self.stored(n, a.bytes()), self.stored(n, b.bytes()));
        let partners = self.partners(n, &firsts, &seconds);
        let kept_bytes = seconds.iter().flatten().zip(&partners);
        let lowest = kept_bytes.into_iter().find_map(|(kept, lost)| {
            let (list, place) = lowest(lost)?;
            Some((kept, &firsts[list][place]))
        });
        let Some((kept, lost)) = lowest else {
            return Finding::of(Kind::Holds);
        };
        let lines = lines_of(&[&firsts, &seconds]);
        let meant = self.image_meant(&lines, kept.store, lost, Some(kept));
        let allowed = meant.moment <= n && self.allows(&meant);
        assert!(allowed, "event {n}: image not allowed");
        assert!(meant.keeps(kept), "event {n}: image loses the kept byte");
        assert!(!meant.keeps(lost), "event {n}: image keeps the lost byte");
        if one_store_set_both(kept, lost) {
            self.check_words(n, &meant, lost);
        }
        Finding::out_of_order(lost.address, kept.address, meant.moment, lost.store)
    }

    /// For each byte of B its lost partners in each list of A: the bytes that an image of a moment
    /// up to `n` loses while it keeps that one.
    fn partners(
        &self,
        n: usize,
        firsts: &[Vec<Stored>],
        seconds: &[Vec<Stored>],
    ) -> Vec<Vec<Places>> {
        let bytes = seconds.iter().map(Vec::len).sum();
        let mut partners = vec![vec![0; firsts.len()]; bytes];
        for moment in 0..=n {
            let mut rows = &mut partners[..];
            for seconds in seconds {
                let (rows_of_line, behind) = rows.split_at_mut(seconds.len());
                rows = behind;
                for (list, firsts) in firsts.iter().enumerate() {
                    self.each_image(moment, firsts, seconds, |lost, kept| {
                        mark_partners(rows_of_line, list, lost, kept);
                    });
                }
            }
        }
        partners
    }

    /// Lists the images of the moment, as far as the line of the first bytes and that of the second
    /// ones go. Calls `each` with those of the first bytes that the image loses, and those of the
    /// second ones that it keeps.
    fn each_image(
        &self,
        moment: usize,
        firsts: &[Stored],
        seconds: &[Stored],
        mut each: impl FnMut(Places, Places),
    ) {
        let (line, other) = (firsts[0].line(), seconds[0].line());
        let choices = self.choices(line, moment);
        if line == other {
            let one_line = choices.iter();
            return one_line.for_each(|left| each(left.lost_of(firsts), left.kept_of(seconds)));
        }
        let others = self.choices(other, moment);
        let kept: Vec<Places> = others.iter().map(|left| left.kept_of(seconds)).collect();
        for left in choices {
            let lost = left.lost_of(firsts);
            kept.iter().for_each(|&kept| each(lost, kept));
        }
    }

    /// Every line keeps all its pieces by the moment, but the lost byte's line keeps only those
    /// older than that byte's last store. Where one store set both bytes on one line, every word
    /// of it on that line is kept too, except the lost byte's.
    fn image_meant(
        &self,
        lines: &[usize],
        moment: usize,
        lost: &Stored,
        kept: Option<&Stored>,
    ) -> Image {
        let torn = kept.is_some_and(|kept| one_store_set_both(kept, lost));
        let left = lines.iter().map(|&line| {
            let here = line == lost.line();
            let survives = |store: &usize| !here || *store < lost.store;
            let words = if here && torn {
                self.words_of(line, lost.store) & !lost.word
            } else {
                0
            };
            Left {
                line,
                survivors: self.pieces(line, moment).filter(survives).count(),
                words,
            }
        });
        Image {
            moment,
            lines: left.collect(),
        }
    }

    /// Of the bytes on the lost byte's line that its last store was the last to set, the image
    /// loses those of its word and keeps the others.
    fn check_words(&self, n: usize, meant: &Image, lost: &Stored) {
        let stored = self.stored(n, bytes_of(lost.line()));
        for byte in stored.iter().flatten().filter(|b| b.store == lost.store) {
            let as_meant = meant.keeps(byte) == (byte.word != lost.word);
            assert!(as_meant, "event {n}: byte {} of the image", byte.address);
        }
    }

    /// The number of images that judging event `n` lists, times the bytes looked at in each.
    fn effort(&self, n: usize) -> u64 {
        match self.records[n - 1].event {
            Event::Persisted(a) => self.effort_of_durable(n, a.bytes()),
            Event::End => self.effort_of_durable(n, 0..self.window()),
            Event::Ordered(a, b) => {
                let (firsts, seconds) = (self.stored(n, a.bytes()), self.stored(n, b.bytes()));
                let efforts = (0..=n).map(|m| self.effort_of_pairs(m, &firsts, &seconds));
                efforts.fold(0, u64::saturating_add)
            }
            _ => 0,
        }
    }

    fn effort_of_durable(&self, n: usize, bytes: std::ops::Range<usize>) -> u64 {
        let stored = self.stored(n, bytes);
        let efforts = stored.iter().map(|bytes| {
            let images = self.choice_count(bytes[0].line(), n);
            images.saturating_mul(bytes.len() as u64)
        });
        efforts.fold(0, u64::saturating_add)
    }

    fn effort_of_pairs(&self, m: usize, firsts: &[Vec<Stored>], seconds: &[Vec<Stored>]) -> u64 {
        let counted = |lists: &[Vec<Stored>]| -> Vec<(usize, u64, u64)> {
            let of_line = |bytes: &Vec<Stored>| {
                let line = bytes[0].line();
                (line, self.choice_count(line, m), bytes.len() as u64)
            };
            lists.iter().map(of_line).collect()
        };
        let (firsts, seconds) = (counted(firsts), counted(seconds));
        let pairs = firsts
            .iter()
            .flat_map(|first| seconds.iter().map(move |second| (first, second)));
        let efforts = pairs.map(|(&(line, choices, lost), &(other, others, kept))| {
            let others = if line == other { 1 } else { others };
            choices.saturating_mul(others).saturating_mul(lost + kept)
        });
        efforts.fold(0, u64::saturating_add)
    }

    /// The length of the list of choices.
    fn choice_count(&self, line: usize, moment: usize) -> u64 {
        let torn = self.torn(line, moment);
        torn.map(|(_, words)| 1 << words.count_ones()).sum()
    }
}

/// Closing epoch less opening epoch, if the interval is closed.
fn exposure_of(epochs: Epochs) -> Option<usize> {
    match epochs {
        Epochs::Closed(opened, closed) => Some(closed - opened),
        _ => None,
    }
}

/// For each place the first event that does not lose it, from the places that each one loses. An
/// event after that one must not lose it again.
fn first_kept(places: usize, events: impl Iterator<Item = (usize, Places)>) -> Vec<Option<usize>> {
    let mut firsts = vec![None; places];
    for (number, lost) in events {
        for (place, first) in firsts.iter_mut().enumerate() {
            let is_lost = lost >> place & 1 == 1;
            assert!(first.is_none() || !is_lost, "event {number}: lost again");
            if !is_lost {
                first.get_or_insert(number);
            }
        }
    }
    firsts
}

/// The bytes of a line.
fn bytes_of(line: usize) -> std::ops::Range<usize> {
    line * LINE..(line + 1) * LINE
}

/// The lines of all these bytes, lowest first.
fn lines_of(lists: &[&[Vec<Stored>]]) -> Vec<usize> {
    let lists = lists.iter().flat_map(|lists| lists.iter());
    let mut lines: Vec<usize> = lists.map(|bytes| bytes[0].line()).collect();
    lines.sort_unstable();
    lines.dedup();
    lines
}

/// The first list with a place, and its lowest place.
fn lowest(lists: &[Places]) -> Option<(usize, usize)> {
    let list = lists.iter().position(|&places| places != 0)?;
    Some((list, lists[list].trailing_zeros() as usize))
}

/// One store was the last to set both bytes, and they are on one line.
fn one_store_set_both(one: &Stored, other: &Stored) -> bool {
    one.store == other.store && one.line() == other.line()
}

/// Adds the lost bytes of a list of A to the partners of each byte of B that is kept.
fn mark_partners(rows: &mut [Vec<Places>], list: usize, lost: Places, mut kept: Places) {
    while lost != 0 && kept != 0 {
        rows[kept.trailing_zeros() as usize][list] |= lost;
        kept &= kept - 1;
    }
}

/// A byte of A is one of B too.
fn has_a_byte_in_both(event: Event) -> bool {
    matches!(event, Event::Ordered(a, b) if a.bytes().any(|byte| b.covers(byte)))
}

fn is_fence(event: Event) -> bool {
    event == Event::Fence
}

fn is_store_to(event: Event, line: usize) -> bool {
    matches!(event, Event::Store(a) if a.touches(line))
}

fn is_write_back_of(event: Event, line: usize) -> bool {
    matches!(event, Event::WriteBack(a) if a.touches(line))
}

/// The most records of a trace that is judged by images as a matter of course.
pub const SMALL_RECORDS: usize = 128;
/// The most bytes looked at, over all images of all assertions, as a matter of course.
pub const SMALL_EFFORT: u64 = 100_000_000;

/// The most bytes looked at, over all images of all fences and of a fence after each event, when an
/// exposure is asked.
const FEW_IMAGES: u64 = 600_000;

/// Whether enumerating the images of the trace takes a fraction of a second: at most
/// [`SMALL_RECORDS`] records, and at most [`SMALL_EFFORT`] bytes looked at. In each image these are
/// the bytes with a last store that it is listed for: of a persisted, at an end of the window, and
/// of both ranges of an ordered, as far as they are on the image's lines. Records from one refused by
/// 6, 7, 9 or 18 on are not judged. A trace refused by its trailer is small.
pub fn small_enough(bytes: &[u8]) -> bool {
    let Ok(body) = trace::open(bytes) else {
        return true;
    };
    if body.count() > SMALL_RECORDS {
        return false;
    }
    let decoded = body.record_bytes().map(|b| trace::decode(b, body.lines));
    let good = decoded.map_while(Result::ok);
    let judged = good.take_while(|record| !has_a_byte_in_both(record.event));
    let records: Vec<Record> = judged.collect();
    small_enough_events(body.lines, &records)
}

/// The same for a list of events whose ranges are in the window.
pub fn small_enough_events(lines: u16, records: &[Record]) -> bool {
    if records.len() > SMALL_RECORDS {
        return false;
    }
    let history = History {
        lines: usize::from(lines),
        records: records.to_vec(),
        findings: Vec::new(),
    };
    let efforts = (1..=records.len()).map(|n| history.effort(n));
    efforts.fold(0, u64::saturating_add) <= SMALL_EFFORT
}

#[cfg(test)]
mod tests {
    use super::*;
    use crate::random::{self, Random};
    use crate::script::Script;

    /// The history of a script's events, parted by semicolons, in a window of three lines.
    fn history(events: &str) -> History {
        let text = format!("lines 3\n{}", events.replace(';', "\n"));
        let script = Script::parse(&text).expect("the script is good");
        let mut history = History::fresh(3);
        for event in &script.events {
            let record = trace::decode(&event.record, 3).expect("the record is good");
            history.give(&record).expect("the event is taken");
        }
        history
    }

    /// Every image of the moment, as far as these lines go.
    fn images_of(history: &History, lines: &[usize], moment: usize) -> Vec<Image> {
        let mut lists = vec![Vec::new()];
        for &line in lines {
            let choices = history.choices(line, moment);
            let longer = |list: &Vec<Left>| -> Vec<Vec<Left>> {
                let with = |&left| [list.as_slice(), &[left]].concat();
                choices.iter().map(with).collect()
            };
            lists = lists.iter().flat_map(longer).collect();
        }
        let image = |lines| Image { moment, lines };
        lists.into_iter().map(image).collect()
    }

    /// The images of one line at a moment, each as its survivors and words.
    fn images_of_line(events: &str, line: usize, moment: usize) -> Vec<(usize, Words)> {
        let images = images_of(&history(events), &[line], moment);
        assert!(images.iter().all(|image| image.moment == moment));
        let left = images.iter().map(|image| image.lines[0]);
        left.map(|left| (left.survivors, left.words)).collect()
    }

    #[test]
    fn choices_of_words() {
        assert_eq!(choices_of(0).collect::<Vec<_>>(), [0]);
        assert_eq!(
            choices_of(0b1000_0000).collect::<Vec<_>>(),
            [0, 0b1000_0000]
        );
        assert_eq!(
            choices_of(0b101).collect::<Vec<_>>(),
            [0, 0b001, 0b100, 0b101]
        );
        assert!(choices_of(255).eq(0..=255));
        for words in 0..=255 {
            let choices: Vec<Words> = choices_of(words).collect();
            assert_eq!(choices.len(), 1 << words.count_ones());
            assert!(choices.iter().all(|chosen| chosen & !words == 0));
            assert!(choices.is_sorted_by(|one, other| one < other));
        }
    }

    #[test]
    fn images_of_one_store() {
        let two_words = [(0, 0b00), (0, 0b01), (0, 0b10), (0, 0b11), (1, 0)];
        assert_eq!(images_of_line("store 0/16", 0, 0), [(0, 0)]);
        assert_eq!(images_of_line("store 0/16", 0, 1), two_words);
        assert_eq!(images_of_line("store 4/8", 0, 1), two_words);
        assert_eq!(images_of_line("store 7/2", 0, 1), two_words);
        assert_eq!(images_of_line("store 0/8", 0, 1), [(0, 0), (0, 1), (1, 0)]);
        assert_eq!(images_of_line("store 3/2", 0, 1), [(0, 0), (0, 1), (1, 0)]);
        // The line that the store does not touch.
        assert_eq!(images_of_line("store 0/16", 1, 1), [(0, 0)]);
        assert_eq!(images_of_line("store 4/16", 0, 1).len(), 9);
        assert_eq!(images_of_line("store 0/64", 0, 1).len(), 257);
    }

    /// A store of no bytes is no piece, and a write-back of none makes nothing survive.
    #[test]
    fn images_with_ranges_of_no_bytes() {
        for events in ["store 0/0", "store 8/0; store 63/0; store 64/0"] {
            let last = events.split(';').count();
            for line in 0..3 {
                assert_eq!(images_of_line(events, line, last), [(0, 0)]);
            }
        }
        let two_words = [(0, 0b00), (0, 0b01), (0, 0b10), (0, 0b11), (1, 0)];
        let inside = "store 0/16; store 8/0; store 0/0";
        for moment in 1..=3 {
            assert_eq!(images_of_line(inside, 0, moment), two_words);
        }
        let not_written = "store 0/16; write-back 0/0; write-back 8/0; fence";
        for moment in 1..=4 {
            assert_eq!(images_of_line(not_written, 0, moment), two_words);
        }
        let written = "store 0/16; write-back 0/1; store 4/0; fence";
        assert_eq!(images_of_line(written, 0, 3), two_words);
        assert_eq!(images_of_line(written, 0, 4), [(1, 0)]);
    }

    /// What must survive survives whole.
    #[test]
    fn images_after_a_write_back_and_a_fence() {
        let events = "store 0/16; write-back 0/1; fence; fence";
        let counts = (0..=4).map(|moment| images_of_line(events, 0, moment).len());
        assert_eq!(counts.collect::<Vec<_>>(), [1, 5, 5, 1, 1]);
        assert_eq!(images_of_line(events, 0, 3), [(1, 0)]);
        let events = "store 0/16; write-back 0/1; store 8/16; fence";
        assert_eq!(images_of_line(events, 0, 3).len(), 4 + 4 + 1);
        let second_torn = [(1, 0b000), (1, 0b010), (1, 0b100), (1, 0b110), (2, 0)];
        assert_eq!(images_of_line(events, 0, 4), second_torn);
    }

    /// Only the oldest piece that does not survive whole is torn.
    #[test]
    fn images_of_two_stores() {
        let events = "store 0/16; store 16/16";
        let first_torn = [(0, 0b0000), (0, 0b0001), (0, 0b0010), (0, 0b0011)];
        let second_torn = [(1, 0b0000), (1, 0b0100), (1, 0b1000), (1, 0b1100)];
        let all = [&first_torn[..], &second_torn, &[(2, 0)]].concat();
        assert_eq!(images_of_line(events, 0, 2), all);
        assert_eq!(images_of_line(events, 0, 1).len(), 5);
    }

    /// Lines are torn independently of each other.
    #[test]
    fn images_of_several_lines() {
        let across = history("store 60/8");
        assert_eq!(images_of(&across, &[0], 1).len(), 3);
        assert_eq!(images_of(&across, &[0, 1], 1).len(), 3 * 3);
        let across = history("store 52/24");
        assert_eq!(images_of(&across, &[0, 1], 1).len(), 5 * 5);
        let three = history("store 60/72");
        assert_eq!(images_of(&three, &[0, 1, 2], 1).len(), 3 * 257 * 3);
        let two = history("store 0/16; store 64/24");
        assert_eq!(images_of(&two, &[0, 1], 1).len(), 5);
        assert_eq!(images_of(&two, &[0, 1], 2).len(), 5 * 9);
    }

    /// The bytes kept in each image of a store of two words, one of them in part.
    #[test]
    fn bytes_of_images() {
        let history = history("store 4/12");
        let stored = history.stored(2, 0..64);
        let bytes = &stored[0];
        assert_eq!((bytes[0].address, bytes.len()), (4, 12));
        let images = images_of(&history, &[0], 1);
        let lost = images.iter().map(|image| image.lines[0].lost_of(bytes));
        let (low, high) = (0b0000_0000_1111, 0b1111_1111_0000);
        let all = low | high;
        assert_eq!(lost.collect::<Vec<_>>(), [all, high, low, 0, 0]);
    }

    /// The image meant has the words of the lost store but the lost byte's.
    #[test]
    fn image_meant_by_a_pair() {
        let history = history("store 0/8; store 4/28; store 64/8");
        let stored = history.stored(4, 0..128);
        let byte = |address: usize| {
            let mut bytes = stored.iter().flatten();
            *bytes.find(|byte| byte.address == address).expect("stored")
        };
        let left = |line, survivors, words| Left {
            line,
            survivors,
            words,
        };
        let meant = |lost, kept: usize| {
            let (lost, kept) = (byte(lost), byte(kept));
            let image = history.image_meant(&[0, 1], kept.store, &lost, Some(&kept));
            assert!(history.allows(&image));
            assert!(image.keeps(&kept) && !image.keeps(&lost));
            (image.moment, image.lines)
        };
        // One store, one line: words 0 to 3, the first of them in part.
        assert_eq!(meant(8, 4), (2, vec![left(0, 1, 0b1101), left(1, 0, 0)]));
        assert_eq!(meant(7, 31), (2, vec![left(0, 1, 0b1110), left(1, 0, 0)]));
        // Two stores to one line, and two lines.
        assert_eq!(meant(4, 0), (1, vec![left(0, 1, 0), left(1, 0, 0)]));
        assert_eq!(meant(4, 64), (3, vec![left(0, 1, 0), left(1, 1, 0)]));
        assert_eq!(meant(64, 8), (2, vec![left(0, 2, 0), left(1, 0, 0)]));
    }

    /// The intervals of these bytes after the events, by images; the other bytes were never stored.
    fn intervals_by_images(events: &str) -> Vec<(usize, Interval)> {
        history(events).intervals_by_images()
    }

    fn open(since: usize, [store, write_back]: [usize; 2]) -> Interval {
        Interval::Open {
            since,
            store,
            write_back,
        }
    }

    fn closed(from: usize, to: usize, [store, write_back, fence]: [usize; 3]) -> Interval {
        Interval::Closed {
            from,
            to,
            store,
            write_back,
            fence,
        }
    }

    #[test]
    fn intervals_of_bytes_by_images() {
        assert_eq!(intervals_by_images("write-back 0/1; fence"), []);
        let stored = intervals_by_images("fence; store 63/2; write-back 0/1");
        assert_eq!(stored, [(63, open(1, [2, 3])), (64, open(1, [2, 0]))]);
        let fenced = intervals_by_images("fence; store 63/2; write-back 0/1; fence; fence");
        assert_eq!(
            fenced,
            [(63, closed(1, 2, [2, 3, 4])), (64, open(1, [2, 0]))]
        );
        let again = "store 0/2; write-back 0/1; fence; store 1/2; fence; write-back 0/1; fence";
        let (first, second) = (closed(0, 1, [1, 2, 3]), closed(1, 3, [4, 6, 7]));
        assert_eq!(
            intervals_by_images(again),
            [(0, first), (1, second), (2, second)]
        );
        let between = intervals_by_images("store 0/2; write-back 0/1; store 1/1; fence");
        assert_eq!(
            between,
            [(0, closed(0, 1, [1, 2, 4])), (1, open(0, [3, 0]))]
        );
        let twice = "store 0/1; write-back 1/1; write-back 0/1; begin; fence; fence; end";
        assert_eq!(intervals_by_images(twice), [(0, closed(0, 1, [1, 2, 5]))]);
        assert_eq!(intervals_by_images("store 0/0; store 64/0; fence"), []);
        let no_bytes =
            "store 0/1; write-back 0/0; fence; store 0/0; write-back 0/1; store 0/0; fence";
        assert_eq!(
            intervals_by_images(no_bytes),
            [(0, closed(0, 2, [1, 5, 7]))]
        );
    }

    /// Also of lists with too many images for every exposure that is asked.
    #[test]
    fn intervals_by_images_of_random_lists() {
        let mut random = Random::new(32);
        let (mut intervals, mut closed, mut waiting) = (0, 0, 0);
        for _ in 0..1_000 {
            let shape = random::small_shape(&mut random);
            let records = random::events(&mut random, &shape);
            let history = History {
                lines: usize::from(shape.lines),
                records,
                findings: Vec::new(),
            };
            for (byte, interval) in history.intervals_by_images() {
                assert_eq!(interval, history.interval(byte), "{:?}", history.records);
                intervals += 1;
                closed += usize::from(matches!(interval, Interval::Closed { .. }));
                let [_, write_back, fence] = interval.events();
                waiting += usize::from(write_back > 0 && fence == 0);
            }
        }
        println!(
            "{intervals} intervals by images, {closed} of them closed, \
             {waiting} written back and not fenced"
        );
        assert!(intervals > 5_000 && closed > 1_000, "{intervals} {closed}");
        assert!(waiting > 300, "{waiting}");
    }

    /// Lists of up to 65,535 events, not given one by one.
    #[test]
    fn intervals_of_long_lists() {
        let (first, line) = (Range::new(0, 1), Range::new(0, 64));
        let (store, written) = (Event::Store(first), Event::WriteBack(line));
        let stored = [Event::Store(line), written, Event::Fence];
        let fences = |count| vec![Event::Fence; count];
        for (events, [byte, other]) in [
            (
                [&fences(32_766), &stored[..], &[store]].concat(),
                [
                    open(32_767, [32_770, 0]),
                    closed(32_766, 32_767, [32_767, 32_768, 32_769]),
                ],
            ),
            (
                [&fences(65_532), &stored[..]].concat(),
                [closed(65_532, 65_533, [65_533, 65_534, 65_535]); 2],
            ),
            (
                [&stored[..1], &fences(65_532), &stored[1..]].concat(),
                [closed(0, 65_533, [1, 65_534, 65_535]); 2],
            ),
            (
                [&fences(65_533), &stored[..2]].concat(),
                [open(65_533, [65_534, 65_535]); 2],
            ),
            (
                [&stored[..], &fences(65_531), &[store]].concat(),
                [open(65_532, [65_535, 0]), closed(0, 1, [1, 2, 3])],
            ),
        ] {
            assert!(events.len() <= MAX_EVENTS);
            let record = |&event| Record { event, site: 0 };
            let history = History {
                lines: 1,
                records: events.iter().map(record).collect(),
                findings: Vec::new(),
            };
            assert_eq!([history.interval(0), history.interval(63)], [byte, other]);
            let epochs = [history.epochs(0), history.epochs(63)];
            assert_eq!(epochs, [byte.epochs(), other.epochs()]);
        }
    }

    /// A list of 65,535 events, not given one by one.
    #[test]
    fn exposures_of_long_lists() {
        let whole = Range::new(0, 4_096);
        let last = Event::Store(Range::new(4_095, 1));
        let written = [Event::WriteBack(whole), Event::Fence];
        let first = [Event::Store(whole), Event::Fence];
        let fences = |count| vec![Event::Fence; count];
        for (events, expected) in [
            (
                [&first[..], &fences(65_531), &written].concat(),
                [65_533, 0, 4_096],
            ),
            (
                [&first[..], &[last], &fences(65_530), &written].concat(),
                [65_531, 4_095, 4_096],
            ),
        ] {
            assert_eq!(events.len(), MAX_EVENTS);
            let record = |&event| Record { event, site: 0 };
            let history = History {
                lines: 64,
                records: events.iter().map(record).collect(),
                findings: Vec::new(),
            };
            let Exposure {
                quotient,
                remainder,
                divisor,
            } = history.exposure().expect("bytes are closed");
            assert_eq!([quotient, remainder, divisor], expected);
        }
    }

    /// 18 comes before 10. A list of 65,535 events, not given one by one.
    #[test]
    fn refusals_behind_the_last_event() {
        let of = |event| Record { event, site: 0 };
        let mut history = History {
            lines: 1,
            records: vec![of(Event::Fence); MAX_EVENTS],
            findings: Vec::new(),
        };
        let a = Range::new(0, 8);
        for (b, number) in [
            (Range::new(0, 8), 18),
            (Range::new(7, 1), 18),
            (Range::new(8, 8), 10),
            (Range::new(4, 0), 10),
        ] {
            assert_eq!(history.give(&of(Event::Ordered(a, b))), Err(number));
            assert_eq!(history.give(&of(Event::Ordered(b, a))), Err(number));
        }
        assert_eq!(history.records.len(), MAX_EVENTS);
    }

    /// The images of all lines concerned at once break the same pairs as those of one or two lines.
    #[test]
    fn lines_of_a_pair_are_enough() {
        let mut random = Random::new(31);
        let (mut orders, mut broken) = (0, 0);
        for _ in 0..4_000 {
            let shape = random::torn_shape(&mut random);
            let records = random::events(&mut random, &shape);
            let mut history = History::fresh(shape.lines);
            for record in &records {
                history.give(record).expect("the event is taken");
            }
            for (at, record) in records.iter().enumerate() {
                let Event::Ordered(a, b) = record.event else {
                    continue;
                };
                let n = at + 1;
                let (firsts, seconds) =
                    (history.stored(n, a.bytes()), history.stored(n, b.bytes()));
                let lines = lines_of(&[&firsts, &seconds]);
                let counts = (0..=n).map(|moment| {
                    let counts = lines.iter().map(|&l| history.choice_count(l, moment));
                    counts.product::<u64>()
                });
                if lines.len() < 2 || counts.sum::<u64>() > 20_000 {
                    continue;
                }
                let expected = partners_over(&history, n, &firsts, &seconds);
                let partners = history.partners(n, &firsts, &seconds);
                assert_eq!(partners, expected, "{records:?}");
                orders += 1;
                broken += usize::from(expected.iter().flatten().any(|&places| places != 0));
            }
        }
        println!("{orders} orders over several lines, {broken} of them broken");
        assert!(orders > 1_500 && broken > 1_000 && broken + 100 < orders);
    }

    /// The lost partners by the images of all lines concerned.
    fn partners_over(
        history: &History,
        n: usize,
        firsts: &[Vec<Stored>],
        seconds: &[Vec<Stored>],
    ) -> Vec<Vec<Places>> {
        let lines = lines_of(&[firsts, seconds]);
        let kept_bytes: Vec<&Stored> = seconds.iter().flatten().collect();
        let mut partners = vec![vec![0; firsts.len()]; kept_bytes.len()];
        for moment in 0..=n {
            for image in images_of(history, &lines, moment) {
                let lost = |bytes: &Vec<Stored>| {
                    let places = bytes.iter().enumerate();
                    places.fold(0, |set, (at, byte)| {
                        set | u64::from(!image.keeps(byte)) << at
                    })
                };
                let lost: Vec<Places> = firsts.iter().map(lost).collect();
                for (partners, kept) in partners.iter_mut().zip(&kept_bytes) {
                    if image.keeps(kept) {
                        let sets = partners.iter_mut().zip(&lost);
                        sets.for_each(|(set, lost)| *set |= lost);
                    }
                }
            }
        }
        partners
    }
}
