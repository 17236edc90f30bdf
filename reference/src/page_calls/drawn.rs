//! Findings areas drawn at random from a fixed seed, some of them damaged, and page areas around
//! the length that is needed.

use super::call::MOST_FINDINGS;
use super::case::{Case, Fields};
use crate::random::Random;
use crate::trace::RECORD;

const SEED: u64 = 303;
const CASES: usize = 90;

pub(super) fn cases() -> Vec<Case> {
    let mut random = Random::new(SEED);
    (0..CASES).map(|_| case(&mut random)).collect()
}

fn case(random: &mut Random) -> Case {
    let mut case = Case::new("random");
    let longest = random.pick(&[1, 8, 8, 40, 3_000]);
    for _ in 0..random.below(16) {
        let count = 1 + random.below(longest);
        let kind = drawn_kind(random);
        let step = random.pick(&[0, 1, 7, 1_000, 65_535]);
        case = case.put(kind, count, step, fields(random));
    }
    case = lay_out(random, case);
    if random.chance(1, 2) {
        case = damaged(random, case);
        case = lay_out(random, case);
    }
    case
}

fn drawn_kind(random: &mut Random) -> u8 {
    match random.below(3) {
        0 => 0,
        _ => 1 + random.below(8) as u8,
    }
}

/// Numbers of any count of digits.
fn fields(random: &mut Random) -> Fields {
    std::array::from_fn(|_| {
        let limit = random.pick(&[10, 100, 1_000, 10_000, 65_536]);
        random.below(limit) as u16
    })
}

/// Lays pages out in one to three page areas: just long enough, longer, or too short.
fn lay_out(random: &mut Random, mut case: Case) -> Case {
    let needed = case.needed();
    for _ in 0..1 + random.below(3) {
        let room = match random.below(6) {
            0 => needed - 1,
            1 => random.below(needed),
            2 => needed + 1 + random.below(500),
            _ => needed,
        };
        case = case.pages(room);
    }
    case
}

/// Sets kinds and zero bytes, or cuts or extends the area.
fn damaged(random: &mut Random, mut case: Case) -> Case {
    if case.count() == 0 || random.chance(1, 6) {
        let length = (RECORD * case.count() + random.below(30)).saturating_sub(10);
        return case.length(length.min(MOST_FINDINGS));
    }
    for _ in 0..1 + random.below(3) {
        let position = 1 + random.below(case.count());
        case = match random.below(3) {
            0 => case.zero(position, random.pick(&[1, 2, 64, 128, 255])),
            1 => case.kind(position, 9 + random.below(247) as u8),
            _ => case.kind(position, drawn_kind(random)),
        };
    }
    case
}
