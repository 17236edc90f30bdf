//! Random findings areas and the page areas for them.

use crate::differential::bytes;
use crate::judge::{self, Answer};
use crate::plain_pages::{length, MOST_FINDINGS, ROWS};
use reference::random::{self, Random};
use reference::trace::RECORD;

/// A findings area, and the trace that was judged into it, if there is one.
pub struct Area {
    pub findings: Vec<u8>,
    pub trace: Option<Vec<u8>>,
}

/// In one of four the findings that the proved judge left; else findings of any fields, one in three
/// damaged.
pub fn drawn(random: &mut Random) -> Area {
    if random.chance(1, 4) {
        return judged(random);
    }
    let mut findings = any_findings(random);
    if random.chance(1, 3) {
        damage(random, &mut findings);
    }
    Area {
        findings,
        trace: None,
    }
}

/// The findings area that an accepted trace leaves.
fn judged(random: &mut Random) -> Area {
    let shape = match random.below(3) {
        0 => random::small_shape(random),
        1 => random::torn_shape(random),
        _ => random::any_shape(random),
    };
    let events = match random.below(10) {
        0 => 60 + random.below(300),
        _ => shape.events,
    };
    let trace = random::valid(random, &random::Shape { events, ..shape });
    let mut findings = vec![0; trace.len()];
    let written = match judge::judge(&trace, &mut findings) {
        Answer::Accepted { events, .. } => RECORD * events as usize,
        Answer::Refused { .. } => 0,
    };
    findings.truncate(written);
    Area {
        findings,
        trace: Some(trace),
    }
}

fn any_findings(random: &mut Random) -> Vec<u8> {
    let shown = shown(random);
    // So many of 16 findings are of kind 0.
    let none = match shown {
        60_000.. => 0,
        _ => random.pick(&[0, 0, 1, 8, 13]),
    };
    let mut findings = Vec::with_capacity(RECORD * (shown + 1));
    for _ in 0..shown {
        put_none(random, &mut findings, none);
        let kind = 1 + random.below(8) as u8;
        put(random, &mut findings, kind);
    }
    put_none(random, &mut findings, none);
    findings.truncate(RECORD * MOST_FINDINGS);
    findings
}

/// How many findings are shown: few, or around a whole number of pages; at times as many as can be.
fn shown(random: &mut Random) -> usize {
    let pages = match random.below(1_000) {
        0 => return MOST_FINDINGS - random.pick(&[0, 0, 0, 1, 52, 53]),
        1 => random.pick(&[999, 1_000]),
        2..=6 => random.pick(&[9, 10, 99, 100]),
        7..=100 => 1 + random.below(20),
        101..=600 => random.below(4),
        _ => return random.below(10),
    };
    (ROWS * pages + random.below(5)).saturating_sub(2)
}

/// Findings of kind 0, none or more.
fn put_none(random: &mut Random, findings: &mut Vec<u8>, of_16: usize) {
    while random.chance(of_16, 16) {
        put(random, findings, 0);
    }
}

/// A finding of this kind with any fields.
fn put(random: &mut Random, findings: &mut Vec<u8>, kind: u8) {
    findings.extend([kind, 0]);
    for _ in 0..5 {
        let field = match random.below(8) {
            0 => random.pick(&[0, 9, 10, 99, 100, 999, 1_000, 9_999, 10_000, u16::MAX]),
            1..=3 => random.bits() as u16,
            _ => random.below(1_000) as u16,
        };
        findings.extend(field.to_le_bytes());
    }
}

/// Sets kinds and zero bytes, or makes it no whole number of findings, or too many.
fn damage(random: &mut Random, findings: &mut Vec<u8>) {
    match random.below(40) {
        0 => {
            let more = random.pick(&[0, 0, 1, 11, 12, 13, 24]);
            findings.resize(RECORD * MOST_FINDINGS + more, 0);
        }
        1..=5 => {
            let more = 1 + random.below(2 * RECORD);
            findings.extend(bytes(random, more));
        }
        6..=10 => {
            let left = findings.len().saturating_sub(1 + random.below(RECORD));
            findings.truncate(left);
        }
        _ => {}
    }
    let count = findings.len() / RECORD;
    for _ in 0..random.below(4) {
        if count > 0 {
            let start = RECORD * random.below(count);
            match random.below(2) {
                0 => findings[start] = random.pick(&[0, 8, 9, 10, 128, 255]),
                _ => findings[start + 1] = random.pick(&[1, 128, 255]),
            }
        }
    }
}

/// The findings of a kind other than 0.
pub fn rows(findings: &[u8]) -> usize {
    let findings = findings.chunks_exact(RECORD);
    findings.filter(|finding| finding[0] != 0).count()
}

/// The length of a page area: just long enough in half of the cases, longer, or too short.
pub fn room(random: &mut Random, findings: &[u8]) -> usize {
    let needed = length(rows(findings));
    match random.below(20) {
        0 => 0,
        1 => random.below(needed),
        2..=4 => needed - 1,
        5..=9 => needed + 1 + random.below(200),
        _ => needed,
    }
}
