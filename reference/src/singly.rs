//! The calls on a run, for any arguments: a fresh window, an event given singly, a byte asked, a
//! closing, and the mean exposure. The record's number in their refusals is 0.

use crate::event::{Record, MAX_LINES};
use crate::exposure::Exposure;
use crate::finding::Finding;
use crate::interval::Interval;
use crate::outcome::{Refusal, Totals};
use crate::Way;

/// A fresh run of so many lines. Refusal 4; the run handed over then has one line.
pub fn fresh<W: Way>(lines: u16) -> (W, Result<(), Refusal>) {
    if (1..=MAX_LINES).contains(&lines) {
        (W::fresh(lines), Ok(()))
    } else {
        (W::fresh(1), Err(refusal(4)))
    }
}

/// Gives an event. Refusals 9, 18 and 10 to 12, in this order; a refused event changes nothing.
pub fn give<W: Way>(run: &mut W, record: &Record) -> Result<Finding, Refusal> {
    let good = record.event.check_ranges(run.window());
    good.and_then(|()| run.give(record)).map_err(refusal)
}

/// The persist interval of a byte. Refusal 9.
pub fn ask<W: Way>(run: &W, byte: usize) -> Result<Interval, Refusal> {
    if byte < run.window() {
        Ok(run.interval(byte))
    } else {
        Err(refusal(9))
    }
}

/// Closes the run, which may go on after it. Refusal 13.
pub fn close<W: Way>(run: &W) -> Result<Totals, Refusal> {
    run.close().map_err(refusal)
}

/// The mean exposure of the run so far, which does not change. Refusal 17.
pub fn exposure<W: Way>(run: &W) -> Result<Exposure, Refusal> {
    run.exposure().map_err(refusal)
}

fn refusal(number: u8) -> Refusal {
    Refusal { number, record: 0 }
}
