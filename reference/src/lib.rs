//! An unrelated checker for traces of persistent-memory events: stores, write-backs, fences and
//! undo-log transactions of one thread on x86.
//!
//! It judges a trace in two ways that share no rule about crash images:
//!
//! - [`judge_by_images`] keeps the list of events and enumerates the crash images of every
//!   assertion (module [`images`]);
//! - [`judge`] goes from event to event with what it knows of each line (module [`direct`]).
//!
//! Both read the trace file with the same code (module [`trace`]). Events can also be given singly,
//! and the persist interval of a byte, with the events that it comes from, or the mean exposure of
//! the run asked for (module [`singly`]); both can be asked of a whole trace too. Module [`writer`]
//! writes a trace file into an area, event by event. Module [`calls`] makes a file of calls on single
//! events and of the writer, and the text of their answers.
//!
//! Module [`pages`] lays the findings of a findings area out for print, module [`read_back`] checks
//! such pages, and module [`page_calls`] makes a file of calls of the pages and the text of their
//! answers.
//!
//! Module [`no_bytes`] counts the events with a range of no bytes, and judges a list without them;
//! module [`orders`] counts the ordered assertions by how their ranges lie to each other.

pub mod calls;
pub mod check;
pub mod corpus;
pub mod direct;
pub mod event;
pub mod exposure;
pub mod finding;
pub mod images;
pub mod interval;
pub mod no_bytes;
pub mod orders;
pub mod outcome;
pub mod page_calls;
pub mod pages;
pub mod random;
pub mod read_back;
pub mod script;
pub mod singly;
pub mod trace;
pub mod writer;

pub use event::{Event, Range, Record};
pub use exposure::Exposure;
pub use finding::{Finding, Kind};
pub use interval::{Epochs, Interval};
pub use outcome::{area_after, findings_bytes, listing, Outcome, Refusal, Report, Totals};

/// A way to judge events one after another, from a fresh window.
pub trait Way {
    /// A fresh window of 1 to 64 lines.
    fn fresh(lines: u16) -> Self;

    /// The number of bytes in the window.
    fn window(&self) -> usize;

    /// Takes an event whose ranges are in the window. Refusals 18 and 10 to 12, in this order; a
    /// refused event changes nothing.
    fn give(&mut self, record: &Record) -> Result<Finding, u8>;

    /// The persist interval of a byte of the window.
    fn interval(&self, byte: usize) -> Interval;

    /// The two epochs of that interval alone, worked out without its events.
    fn epochs(&self, byte: usize) -> Epochs;

    /// Closes the run. Refusal 13.
    fn close(&self) -> Result<Totals, u8>;

    /// The mean exposure of the bytes whose interval is closed. Refusal 17, no byte is.
    fn exposure(&self) -> Result<Exposure, u8>;
}

/// Judges a trace the direct way, for a findings area of `area_len` bytes.
pub fn judge(trace: &[u8], area_len: usize) -> Outcome {
    judge_with::<direct::Run>(trace, area_len)
}

/// Judges a trace by enumerating crash images. Their number grows quickly: see
/// [`images::small_enough`].
pub fn judge_by_images(trace: &[u8], area_len: usize) -> Outcome {
    judge_with::<images::History>(trace, area_len)
}

/// Judges a trace in the given way.
pub fn judge_with<W: Way>(trace: &[u8], area_len: usize) -> Outcome {
    let body = match trace::open(trace) {
        Ok(body) => body,
        Err(number) => return Outcome::refused(number, 0),
    };
    if area_len < trace::RECORD * body.count() {
        return Outcome::refused(14, 0);
    }
    match Whole::<W>::of(&body) {
        Ok(whole) => Outcome::Accepted(Report {
            lines: body.lines,
            totals: whole.totals,
            findings: whole.findings,
        }),
        Err(refusal) => Outcome::Refused(refusal),
    }
}

/// The mean exposure of the run after all events of a trace, the direct way. The trace is refused
/// as the judge refuses it, 14 aside; 17 at 0 comes after that.
pub fn exposure(trace: &[u8]) -> Result<Exposure, Refusal> {
    exposure_with::<direct::Run>(trace)
}

/// The same from the list of events, which is judged by enumerating crash images: see
/// [`images::small_enough`].
pub fn exposure_by_images(trace: &[u8]) -> Result<Exposure, Refusal> {
    exposure_with::<images::History>(trace)
}

/// The mean exposure of a trace in the given way.
pub fn exposure_with<W: Way>(trace: &[u8]) -> Result<Exposure, Refusal> {
    let at_0 = |number| Refusal { number, record: 0 };
    let body = trace::open(trace).map_err(at_0)?;
    Whole::<W>::of(&body)?.way.exposure().map_err(at_0)
}

/// The persist interval of a byte after all events of a trace, with the sites of the events named,
/// the direct way. The trace is refused as the judge refuses it, 14 aside; 9 at 0 for a byte past the
/// window comes after that.
pub fn interval(trace: &[u8], byte: usize) -> Result<interval::OfTrace, Refusal> {
    interval_with::<direct::Run>(trace, byte)
}

/// The same from the list of events, which is judged by enumerating crash images: see
/// [`images::small_enough`].
pub fn interval_by_images(trace: &[u8], byte: usize) -> Result<interval::OfTrace, Refusal> {
    interval_with::<images::History>(trace, byte)
}

/// The persist interval of a byte of a trace in the given way.
pub fn interval_with<W: Way>(trace: &[u8], byte: usize) -> Result<interval::OfTrace, Refusal> {
    let at_0 = |number| Refusal { number, record: 0 };
    let body = trace::open(trace).map_err(at_0)?;
    let whole = Whole::<W>::of(&body)?;
    let interval = singly::ask(&whole.way, byte)?;
    let records: Vec<_> = body.record_bytes().collect();
    let site = |event: usize| match event {
        0 => 0,
        _ => trace::site_of(records[event - 1]),
    };
    Ok(interval::OfTrace {
        interval,
        sites: interval.events().map(site),
    })
}

/// The run after all events of a trace, with their findings and the totals at its closing.
struct Whole<W> {
    way: W,
    findings: Vec<Finding>,
    totals: Totals,
}

impl<W: Way> Whole<W> {
    /// Gives the records of a trace to a fresh run, and closes it. Refusals 6, 7, 9, 18 and 10 to 12,
    /// in this order for each record, and then 13.
    fn of(body: &trace::Body) -> Result<Whole<W>, Refusal> {
        let mut way = W::fresh(body.lines);
        let mut findings = Vec::with_capacity(body.count());
        for (at, bytes) in body.record_bytes().enumerate() {
            let taken = trace::decode(bytes, body.lines).and_then(|record| way.give(&record));
            let refusal = |number| Refusal {
                number,
                record: at + 1,
            };
            findings.push(taken.map_err(refusal)?);
        }
        let totals = way
            .close()
            .map_err(|number| Refusal { number, record: 0 })?;
        Ok(Whole {
            way,
            findings,
            totals,
        })
    }
}

/// The findings of a list of events in the given way, whether a transaction stays open or not;
/// or the refusal of the first event that is refused.
pub fn findings_with<W: Way>(lines: u16, records: &[Record]) -> Result<Vec<Finding>, Refusal> {
    let mut way = W::fresh(lines);
    let give = |(at, record)| {
        way.give(record).map_err(|number| Refusal {
            number,
            record: at + 1,
        })
    };
    records.iter().enumerate().map(give).collect()
}
