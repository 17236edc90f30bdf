//! Traces drawn at random from fixed seeds, and long ones.

use super::Cases;
use crate::event::{Event, Range, Record};
use crate::random::{self, Mix, Random, Shape};
use crate::trace::{self, RECORD};

/// Records of the largest trace.
const MOST: usize = 5_460;

pub(super) fn add(cases: &mut Cases) {
    small(cases);
    any(cases);
    mixes(cases);
    damaged(cases);
    areas(cases);
    long(cases);
    torn(cases);
    no_bytes(cases);
    shared(cases);
}

fn small(cases: &mut Cases) {
    let mut random = Random::new(101);
    for number in 0..60 {
        let shape = random::small_shape(&mut random);
        let trace = random::valid(&mut random, &shape);
        cases.add(&format!("random/small-{number}"), trace);
    }
}

fn any(cases: &mut Cases) {
    let mut random = Random::new(102);
    for number in 0..40 {
        let shape = random::any_shape(&mut random);
        let trace = random::valid(&mut random, &shape);
        cases.add(&format!("random/any-{number}"), trace);
    }
}

fn mixes(cases: &mut Cases) {
    let mut random = Random::new(103);
    let mixes = [
        ("transactions", Mix::TRANSACTIONS),
        ("write-backs", Mix::WRITE_BACKS),
        ("ordered", Mix::ORDERED),
    ];
    for (name, mix) in mixes {
        for number in 0..25 {
            let shape = Shape {
                mix,
                ..random::small_shape(&mut random)
            };
            let trace = random::valid(&mut random, &shape);
            cases.add(&format!("random/{name}-{number}"), trace);
        }
    }
}

fn damaged(cases: &mut Cases) {
    let mut random = Random::new(104);
    for number in 0..100 {
        let shape = if number % 4 == 0 {
            random::any_shape(&mut random)
        } else {
            random::small_shape(&mut random)
        };
        let trace = random::damaged(&mut random, &shape);
        cases.add(&format!("random/damaged-{number}"), trace);
    }
}

/// Areas of any length around the one that is needed.
fn areas(cases: &mut Cases) {
    let mut random = Random::new(105);
    for number in 0..20 {
        let shape = random::small_shape(&mut random);
        let trace = random::valid(&mut random, &shape);
        let count = trace::open(&trace).map_or(0, |body| body.count());
        let area = RECORD * count + random.below(40);
        let name = format!("random/area-{number}");
        cases.add_with_area(&name, trace, area.saturating_sub(12));
    }
}

fn long(cases: &mut Cases) {
    let mut random = Random::new(106);
    for number in 0..6 {
        let shape = Shape {
            lines: [64, 64, 63, 8, 2, 1][number],
            events: 300,
            mix: Mix::EVEN,
            longest: [4096, 64, 200, 8, 16, 3][number],
            ranges: [0, 20, 0, 30, 10, 6][number],
            no_bytes: [4, 4, 20, 4, 20, 4][number],
        };
        let trace = random::valid(&mut random, &shape);
        cases.add(&format!("long/mixed-{number}"), trace);
    }
    let shape = Shape {
        lines: 64,
        events: MOST,
        mix: Mix {
            store: 12,
            write_back: 12,
            fence: 6,
            transaction: 0,
            persisted: 1,
            ordered: 1,
            within: 0,
        },
        longest: 300,
        ranges: 0,
        no_bytes: 4,
    };
    let records = random::events(&mut random, &shape);
    cases.add("long/largest", trace::write(64, &[], &records));
    large_ranges(cases, &mut random);
    let fences = many_fences();
    cases.add("long/fences", trace::write(64, &[], &fences));
    last_refused(cases, fences);
}

fn large_ranges(cases: &mut Cases, random: &mut Random) {
    let shape = Shape {
        lines: 64,
        events: 600,
        mix: Mix::PLAIN,
        longest: 4096,
        ranges: 0,
        no_bytes: 4,
    };
    let records = random::events(random, &shape);
    cases.add("long/large-ranges", trace::write(64, &[], &records));
}

/// The largest trace: stores, write-backs and fences in turn over the lines.
fn many_fences() -> Vec<Record> {
    let mut records = Vec::with_capacity(MOST);
    for number in 0..MOST {
        let round = number / 3;
        let range = Range::new((round * 67 % 4090) as u16, 6);
        let event = match number % 3 {
            0 => Event::Store(range),
            1 => Event::WriteBack(range),
            _ => Event::Fence,
        };
        let site = number as u16;
        records.push(Record { event, site });
    }
    let halves = [Range::new(0, 2048), Range::new(2048, 2048)];
    records[MOST - 2].event = Event::Ordered(halves[0], halves[1]);
    records[MOST - 1].event = Event::Persisted(Range::new(0, 4096));
    records
}

/// The largest trace, refused at its last record, and one byte more than the largest.
fn last_refused(cases: &mut Cases, mut records: Vec<Record>) {
    let too_long = trace::write(64, &[0], &records);
    cases.add("length/65537", too_long);
    records[MOST - 1].event = Event::End;
    cases.add("long/refused-last", trace::write(64, &[], &records));
}

/// Stores of several words, and orders between their parts.
fn torn(cases: &mut Cases) {
    let mut random = Random::new(107);
    for number in 0..60 {
        let shape = random::torn_shape(&mut random);
        let trace = random::valid(&mut random, &shape);
        cases.add(&format!("random/torn-{number}"), trace);
    }
}

/// Many ranges of no bytes.
fn no_bytes(cases: &mut Cases) {
    let mut random = Random::new(108);
    for number in 0..25 {
        let shape = match number % 3 {
            0 => random::any_shape(&mut random),
            1 => random::torn_shape(&mut random),
            _ => random::small_shape(&mut random),
        };
        let shape = Shape {
            no_bytes: 40,
            ..shape
        };
        let trace = random::valid(&mut random, &shape);
        cases.add(&format!("random/no-bytes-{number}"), trace);
    }
}

/// Many orders, of which one got a range B near its range A.
fn shared(cases: &mut Cases) {
    let mut random = Random::new(109);
    for number in 0..25 {
        let shape = Shape {
            mix: Mix::ORDERED,
            ..random::small_shape(&mut random)
        };
        let mut trace = random::valid(&mut random, &shape);
        random::order_near_itself(&mut random, &mut trace);
        cases.add(&format!("random/shared-{number}"), trace);
    }
}
