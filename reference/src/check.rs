//! Checking a script: its trace is judged both ways, and compared with what it expects.

use crate::images;
use crate::outcome::{listing, Outcome};
use crate::script::{Script, Scripted};
use crate::trace::MAX_TRACE;
use crate::{judge, judge_by_images};

/// What checking a script came to.
#[derive(Clone, Debug, PartialEq, Eq)]
pub struct Checked {
    /// Every difference, in words; empty if there is none.
    pub differences: Vec<String>,
    /// How many lines of the script were compared.
    pub compared: usize,
    /// Whether the crash images were few enough to be enumerated.
    pub both_ways: bool,
    pub outcome: Outcome,
}

/// Judges the script's trace both ways and compares it with the `expect` and `refused` lines. A
/// script without a `refused` line is expected to be accepted.
pub fn check(script: &Script) -> Checked {
    let trace = script.trace();
    let outcome = judge(&trace, MAX_TRACE);
    let both_ways = images::small_enough(&trace);
    let mut differences = Vec::new();
    if both_ways {
        let enumerated = judge_by_images(&trace, MAX_TRACE);
        if enumerated != outcome {
            differences.push(differing_ways(&outcome, &enumerated));
        }
    }
    let mut compared = 0;
    match (&outcome, script.refused) {
        (_, Some(expected)) => {
            compared += 1;
            if outcome.refusal() != Some(expected) {
                let (number, record) = (expected.number, expected.record);
                let found = first_line(&outcome);
                differences.push(format!("expected `refused {number} at {record}`: {found}"));
            }
        }
        (Outcome::Refused(_), None) => {
            differences.push(format!("expected to be accepted: {}", first_line(&outcome)));
        }
        (Outcome::Accepted(report), None) => {
            for (event, finding) in script.events.iter().zip(&report.findings) {
                let Some(expect) = event.expect else { continue };
                compared += 1;
                if !expect.matches(finding) {
                    differences.push(differing_finding(event, finding));
                }
            }
        }
    }
    Checked {
        differences,
        compared,
        both_ways,
        outcome,
    }
}

fn first_line(outcome: &Outcome) -> String {
    let text = listing(outcome);
    text.lines().next().unwrap_or("").to_string()
}

fn differing_finding(event: &Scripted, finding: &crate::Finding) -> String {
    let f = finding;
    let name = f.kind.name();
    format!(
        "line {}: got {name} {} {} {} {}",
        event.at, f.lost, f.kept, f.moment, f.store
    )
}

fn differing_ways(direct: &Outcome, enumerated: &Outcome) -> String {
    let (direct, enumerated) = (listing(direct), listing(enumerated));
    let pairs = direct.lines().zip(enumerated.lines());
    let differing = pairs.into_iter().find(|(one, other)| one != other);
    let (one, other) = differing.unwrap_or(("more lines", "fewer lines"));
    format!("the two ways differ: direct `{one}`, by images `{other}`")
}
