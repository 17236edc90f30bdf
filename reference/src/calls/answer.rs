//! The answers to calls, those on a run in either way.

use super::writing::{Change, Writing};
use super::{Call, FENCE};
use crate::exposure::Exposure;
use crate::finding::{Finding, Kind};
use crate::interval::Interval;
use crate::outcome::{Refusal, Totals};
use crate::{singly, Way};
use std::fmt;

#[derive(Clone, Debug, PartialEq, Eq)]
pub enum Answer {
    /// The fresh window is as asked for.
    Taken,
    Finding(Finding),
    Interval(Interval),
    Totals(Totals),
    Exposure(Exposure),
    Refused(u8),
    /// From the writer: taken, with the file's length if it is a closing, or refused by a number;
    /// and what the call changed in the area.
    Writer(Result<Option<usize>, u8>, Option<Change>),
}

/// The answers to calls. Of those on a run, the first is a fresh window. Calls for which nothing is
/// printed have `None`.
pub fn answers<W: Way>(calls: &[Call]) -> Vec<Option<Answer>> {
    let mut run = None;
    let mut writing = Writing::new();
    let answer_to = |&call: &Call| match call {
        Call::Fresh(lines) => {
            let (fresh, taken) = singly::fresh::<W>(lines);
            run = Some(fresh);
            Some(or_refused(taken.map(|()| Answer::Taken)))
        }
        call if call.is_of_writer() => writing.answer(call),
        call => {
            let run = run.as_mut().expect("a run starts with a fresh window");
            answer(run, call)
        }
    };
    calls.iter().map(answer_to).collect()
}

/// The answer to a call on a run that is there.
fn answer<W: Way>(run: &mut W, call: Call) -> Option<Answer> {
    let answered = match call {
        Call::Give(record) => singly::give(run, &record).map(Answer::Finding),
        Call::Ask(byte) => singly::ask(run, usize::from(byte)).map(Answer::Interval),
        Call::Close => singly::close(run).map(Answer::Totals),
        Call::Exposure => singly::exposure(run).map(Answer::Exposure),
        Call::Fences(count) => {
            give_fences(run, count);
            return None;
        }
        _ => panic!("not a call on a run that is there: {call}"),
    };
    Some(or_refused(answered))
}

fn or_refused(answered: Result<Answer, Refusal>) -> Answer {
    answered.unwrap_or_else(|Refusal { number, .. }| Answer::Refused(number))
}

/// Gives fences whose answers are not wanted, refusals included.
fn give_fences<W: Way>(run: &mut W, count: u16) {
    for _ in 0..count {
        let _ = singly::give(run, &FENCE);
    }
}

impl fmt::Display for Answer {
    fn fmt(&self, f: &mut fmt::Formatter<'_>) -> fmt::Result {
        match self {
            Answer::Taken => write!(f, "taken"),
            Answer::Finding(finding) => write_finding(f, finding),
            Answer::Interval(interval) => write!(f, "{interval}"),
            Answer::Totals(totals) => {
                let (events, fences, found) = (totals.events, totals.fences, totals.found);
                write!(f, "events {events} fences {fences} findings {found}")
            }
            Answer::Exposure(exposure) => write!(f, "{exposure}"),
            Answer::Refused(number) => write!(f, "refused {number}"),
            Answer::Writer(result, change) => {
                match result {
                    Ok(None) => write!(f, "taken"),
                    Ok(Some(length)) => write!(f, "length {length}"),
                    Err(number) => write!(f, "refused {number}"),
                }?;
                change.iter().try_for_each(|change| write!(f, " {change}"))
            }
        }
    }
}

fn write_finding(f: &mut fmt::Formatter<'_>, finding: &Finding) -> fmt::Result {
    if finding.kind == Kind::None {
        return write!(f, "none");
    }
    let kind = finding.kind.number();
    let (lost, kept) = (finding.lost, finding.kept);
    let (moment, store) = (finding.moment, finding.store);
    write!(
        f,
        "finding {kind} lost {lost} kept {kept} moment {moment} store {store}"
    )
}
