//! The outcome of judging a trace, its findings area and its listing.

use crate::finding::{Finding, Kind};
use crate::trace::RECORD;
use std::fmt::Write;

/// The numbers of the refusals that a trace can get. 8 is no longer given.
pub const OF_TRACES: [u8; 14] = [1, 2, 3, 4, 5, 6, 7, 9, 10, 11, 12, 13, 14, 18];

/// A refusal: its number, and the record's number from 1 (0 for trailer, area, closing, and the
/// calls on single events).
#[derive(Clone, Copy, Debug, PartialEq, Eq, Hash)]
pub struct Refusal {
    pub number: u8,
    pub record: usize,
}

/// What closing a run answers with.
#[derive(Clone, Copy, Debug, PartialEq, Eq)]
pub struct Totals {
    pub events: usize,
    pub fences: usize,
    /// Findings of a kind other than 0.
    pub found: usize,
}

/// An accepted trace.
#[derive(Clone, Debug, PartialEq, Eq)]
pub struct Report {
    pub lines: u16,
    pub totals: Totals,
    /// One finding for each record, in order.
    pub findings: Vec<Finding>,
}

#[derive(Clone, Debug, PartialEq, Eq)]
pub enum Outcome {
    Accepted(Report),
    Refused(Refusal),
}

impl Outcome {
    pub fn refused(number: u8, record: usize) -> Outcome {
        Outcome::Refused(Refusal { number, record })
    }

    pub fn report(&self) -> Option<&Report> {
        match self {
            Outcome::Accepted(report) => Some(report),
            Outcome::Refused(_) => None,
        }
    }

    pub fn refusal(&self) -> Option<Refusal> {
        match self {
            Outcome::Accepted(_) => None,
            Outcome::Refused(refusal) => Some(*refusal),
        }
    }
}

/// The bytes that an accepted trace writes at the start of the findings area; a refused one
/// writes none.
pub fn findings_bytes(outcome: &Outcome) -> Vec<u8> {
    let Some(report) = outcome.report() else {
        return Vec::new();
    };
    let mut bytes = Vec::with_capacity(RECORD * report.findings.len());
    for finding in &report.findings {
        bytes.extend_from_slice(&finding.to_bytes());
    }
    bytes
}

/// The findings area after judging, if every byte of it was `before`.
pub fn area_after(outcome: &Outcome, area_len: usize, before: u8) -> Vec<u8> {
    let mut area = vec![before; area_len];
    let written = findings_bytes(outcome);
    area[..written.len()].copy_from_slice(&written);
    area
}

/// The text that the program prints: the listing, or the line of a refusal.
pub fn listing(outcome: &Outcome) -> String {
    let mut text = String::new();
    match outcome {
        Outcome::Accepted(report) => list_report(report, &mut text),
        Outcome::Refused(refusal) => {
            let (number, record) = (refusal.number, refusal.record);
            writeln!(text, "refused {number} at {record}").expect("a string takes text");
        }
    }
    text
}

fn list_report(report: &Report, text: &mut String) {
    let put = "a string takes text";
    let (events, lines) = (report.totals.events, report.lines);
    writeln!(text, "trace {events} events {lines} lines").expect(put);
    let mut printed = 0;
    for (at, finding) in report.findings.iter().enumerate() {
        if finding.kind != Kind::None {
            writeln!(text, "{} {}", at + 1, finding_words(finding)).expect(put);
            printed += 1;
        }
    }
    writeln!(text, "end {printed}").expect(put);
}

/// The columns of a finding from the site on.
fn finding_words(finding: &Finding) -> String {
    format!(
        "{} {} {} {} {} {}",
        finding.site,
        finding.kind.name(),
        finding.lost,
        finding.kept,
        finding.moment,
        finding.store
    )
}
