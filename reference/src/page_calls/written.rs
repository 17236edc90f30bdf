//! The cases that are not drawn at random.

use super::call::{Call, MOST_FINDINGS, MOST_ROOM};
use super::case::Case;
use crate::trace::RECORD;

/// The most findings in an area that is not refused.
const MOST: usize = 65_535;
/// The length of a page with no row.
const NO_ROWS: usize = 124;
/// Numbers beside which the count of digits changes, and the ends.
const EDGES: [u16; 10] = [0, 9, 10, 99, 100, 999, 1_000, 9_999, 10_000, 65_535];

pub(super) fn cases() -> Vec<Case> {
    let mut cases = vec![whole_run(), earlier()];
    cases.extend(shown());
    cases.extend(none_shown());
    cases.extend(between());
    cases.extend(kinds());
    cases.extend(numbers());
    cases.extend(page_counts());
    cases.extend(lengths());
    cases.extend(damaged_places());
    cases.extend(damaged_pairs());
    cases.extend(rooms());
    cases
}

/// The findings of the request's whole run.
fn whole_run() -> Case {
    let findings = [
        (0, [0, 0, 0, 0, 10]),
        (0, [0, 0, 0, 0, 11]),
        (0, [0, 0, 0, 0, 12]),
        (0, [0, 0, 0, 0, 13]),
        (3, [0, 64, 2, 1, 14]),
        (2, [64, 0, 6, 2, 15]),
        (6, [0, 0, 0, 0, 16]),
        (0, [0, 0, 0, 0, 17]),
        (1, [0, 0, 0, 0, 18]),
    ];
    let put = |case: Case, (kind, fields)| case.put(kind, 1, 0, fields);
    findings
        .into_iter()
        .fold(Case::new("whole run"), put)
        .text()
}

/// The findings that an earlier version left for `store 0/8` and `ordered 0/8 before 0/8`, which is
/// now refused by 18.
fn earlier() -> Case {
    let case = Case::new("earlier").put(0, 1, 0, [0, 0, 0, 0, 10]);
    case.put(1, 1, 0, [0, 0, 0, 0, 11]).text()
}

/// Counts of findings shown, around whole pages.
fn shown() -> Vec<Case> {
    let group = "shown";
    let texts = [0, 1, 2, 58, 59, 117];
    let few = [
        3, 57, 60, 115, 116, 118, 173, 174, 175, 231, 232, 233, 290, 291, 464, 465,
    ];
    let many = [MOST - 53, MOST - 52, MOST];
    let texts = texts.map(|count| Case::new(group).shown(count, 7).text());
    let few = few.map(|count| Case::new(group).shown(count, 7).exact());
    let many = many.map(|count| Case::new(group).shown(count, 1_000).exact());
    texts.into_iter().chain(few).chain(many).collect()
}

/// Findings of kind 0 alone, whose fields are set.
fn none_shown() -> Vec<Case> {
    let case = |count| {
        let case = Case::new("none shown").some(0, count);
        case.exact().pages(NO_ROWS - 1).pages(NO_ROWS + 200)
    };
    let mut cases: Vec<Case> = [2, 57, 58, 59, MOST].map(case).into();
    cases.push(Case::new("none shown").put(0, 1, 0, [65_535; 5]).text());
    cases
}

/// Findings of kind 0 among the others.
fn between() -> Vec<Case> {
    let new = || Case::new("kind 0 between");
    let some_breaks = [57, 58, 59, 115, 116, 117];
    let mut cases = vec![
        new().some(0, 1).shown(3, 1).text(),
        new().shown(3, 1).some(0, 1).text(),
        new().some(0, 2).shown(1, 1).some(0, 2).text(),
        new().shown(57, 7).some(0, 1).shown(2, 1).text(),
        new().shown(58, 7).some(0, 1).exact(),
        new().shown(58, 7).some(0, 58).exact(),
        new().shown(58, 7).some(0, 1).shown(1, 1).text(),
        new().shown(58, 7).some(0, 58).shown(58, 7).exact(),
        new().some(0, 58).shown(1, 1).exact(),
        new().some(0, 58).shown(58, 7).some(0, 58).exact(),
        new().some(0, 57).shown(59, 7).some(0, 57).exact(),
        new().some(0, MOST - 1).some(4, 1).exact(),
        new().some(5, 1).some(0, MOST - 1).exact(),
        new()
            .some(0, 30_000)
            .shown(59, 7)
            .some(0, MOST - 30_059)
            .exact(),
    ];
    // A finding becomes kind 0 on either side of a page's end.
    let without = |position| new().shown(175, 7).kind(position, 0).exact();
    cases.extend(some_breaks.map(without));
    cases.push(alternating(new(), 0));
    cases.push(alternating(new(), 1));
    cases
}

/// 130 findings, every second one of kind 0.
fn alternating(case: Case, first: usize) -> Case {
    let put = |case: Case, number: usize| match (number + first) % 2 {
        0 => case.some(0, 1),
        _ => case.some(1 + (number / 2 % 8) as u8, 1),
    };
    (0..130).fold(case, put).exact()
}

/// Every kind, together and alone.
fn kinds() -> Vec<Case> {
    let new = || Case::new("kinds");
    let put = |case: Case, kind| case.put(kind, 1, 0, [10, 20, 30, 40, u16::from(kind)]);
    let mut cases = vec![
        (1..=8).fold(new(), put).text(),
        (0..=8).rev().fold(new(), put).text(),
        (1..=8)
            .fold(new(), |case, kind| case.some(kind, 58))
            .exact(),
        (0..=8)
            .fold(new(), |case, kind| case.some(kind, 700))
            .exact(),
    ];
    cases.extend((1..=8).map(|kind| put(new(), kind).exact()));
    cases.extend((1..=8).map(|kind| new().some(kind, 59).exact()));
    cases
}

/// Every count of digits in every column.
fn numbers() -> Vec<Case> {
    let new = || Case::new("numbers");
    let widest = [65_535; 5];
    vec![
        new().some(0, MOST - 1).put(6, 1, 0, widest).text(),
        new().put(6, 1, 0, widest).put(8, 1, 0, [0; 5]).text(),
        new().put(3, 59, 0, widest).exact(),
        each_field(new()).text(),
        each_byte(new()).text(),
        event_numbers(new()).text(),
        // Fields that pass 65,535 and go on from 0.
        new()
            .put(2, 300, 257, [65_000, 64_000, 63_000, 62_000, 61_000])
            .exact(),
        new().put(7, 300, 65_535, [5, 50, 100, 150, 200]).exact(),
        // Fields of every value.
        new().put(1, MOST, 1, [0, 1, 2, 3, 4]).exact(),
    ]
}

/// The edges in one field after another, and in all of them.
fn each_field(mut case: Case) -> Case {
    for edge in EDGES {
        for field in 0..5 {
            let mut fields = [0; 5];
            fields[field] = edge;
            case = case.put(3, 1, 0, fields);
        }
        case = case.put(6, 1, 0, [edge; 5]);
    }
    case
}

/// Ten findings, each with another byte of its fields set.
fn each_byte(case: Case) -> Case {
    let set = |case: Case, number: usize| {
        let place = (RECORD * number + 2 + number) as u32;
        case.call(Call::Set { place, byte: 1 })
    };
    (0..10).fold(case.put(4, 10, 0, [0; 5]), set)
}

/// Findings shown at the edges, those before them of kind 0.
fn event_numbers(mut case: Case) -> Case {
    for &event in EDGES.iter().filter(|&&event| event > 0) {
        let before = usize::from(event) - 1 - case.count();
        if before > 0 {
            case = case.some(0, before);
        }
        case = case.put(2, 1, 0, [1, 0, event, 2, 3]);
    }
    case
}

/// Numbers of pages with 1 to 4 digits.
fn page_counts() -> Vec<Case> {
    let pages = [9, 10, 99, 100, 999, 1_000];
    let full = pages.map(|pages| 58 * pages);
    let more = [58 * 9 + 1, 58 * 99 + 1, 58 * 999 + 1, 58 * 1_000 + 1];
    let case = |count| Case::new("page counts").shown(count, 2_000).exact();
    full.into_iter().chain(more).map(case).collect()
}

/// Findings areas that are no whole number of findings, or have too many.
fn lengths() -> Vec<Case> {
    let new = || Case::new("lengths");
    let over = RECORD * MOST;
    let odd = [
        1,
        11,
        13,
        23,
        over - 1,
        over + 1,
        over + 11,
        over + 12,
        over + 13,
    ];
    let cases = odd.into_iter().chain([MOST_FINDINGS]).map(|length| {
        let case = new().length(length);
        case.pages(NO_ROWS).pages(0)
    });
    let mut cases: Vec<Case> = cases.collect();
    cases.extend([
        new()
            .length(12)
            .exact()
            .length(24)
            .exact()
            .length(25)
            .exact(),
        new().shown(3, 1).length(35).exact().length(37).exact(),
        // Damaged too, and with no room.
        new().some(9, 1).length(13).pages(NO_ROWS).pages(0),
        new().some(9, 1).length(11).pages(0),
        new().shown(3, 1).zero(1, 1).length(37).exact().pages(0),
        new().shown(3, 1).kind(3, 255).length(35).exact().pages(0),
        new()
            .some(1, 1)
            .length(over + 12)
            .kind(1, 9)
            .exact()
            .pages(0),
        new().length(over + 12).zero(MOST + 1, 1).exact().pages(0),
        new().length(over + 12).kind(MOST + 1, 9).exact(),
        new().some(5, MOST + 1).pages(MOST_ROOM).pages(0),
        new().some(5, MOST + 2).pages(MOST_ROOM),
        // Cut to a whole number, the damage goes.
        new().shown(4, 1).kind(4, 9).exact().length(36).exact(),
    ]);
    cases
}

/// Kinds over 8 and zero bytes that are set, at places of areas.
fn damaged_places() -> Vec<Case> {
    let new = || Case::new("damaged");
    let five = [1, 3, 5].map(|position| damaged(new().shown(5, 1), position));
    let nothing_shown = [1, 2, 3].map(|position| damaged(new().some(0, 3), position));
    let pages = [57, 58, 59, 60, 175].map(|position| damaged(new().shown(175, 7), position));
    let most = [1, 40_000, MOST].map(|position| {
        let case = new().shown(MOST, 5_000).kind(position, 9).pages(NO_ROWS);
        case.zero(position, 1)
            .pages(0)
            .kind(position, 8)
            .pages(NO_ROWS)
    });
    let cases = five.into_iter().chain(nothing_shown);
    cases.chain(pages).chain(most).collect()
}

/// One finding with each damage, in page areas that are long enough or not; then as it was.
fn damaged(mut case: Case, position: usize) -> Case {
    let room = case.needed();
    let kind = case.kind_at(position);
    for over in [9, 10, 128, 255] {
        case = case.kind(position, over).pages(room);
    }
    // Both in one finding, and no room.
    case = case.zero(position, 1).pages(room).pages(room - 1).pages(0);
    case = case.kind(position, kind);
    for set in [1, 128, 255] {
        case = case.zero(position, set).pages(room);
    }
    case = case.pages(room - 1).pages(0);
    // Kind 0 is damaged by its zero byte too, and every kind up to 8.
    case = case
        .kind(position, 0)
        .pages(room)
        .kind(position, 8)
        .pages(room);
    case.zero(position, 0).kind(position, kind).pages(room)
}

/// Two findings damaged.
fn damaged_pairs() -> Vec<Case> {
    let new = || Case::new("two damaged").shown(6, 1);
    let beside = [(1, 2), (1, 6), (3, 4), (5, 6)];
    let pair = |(first, second): (usize, usize)| {
        let case = new().zero(first, 1).kind(second, 9).exact().pages(0);
        let case = case.zero(first, 0).kind(first, 9).exact();
        let case = case.kind(second, 1).zero(second, 255).exact().pages(0);
        let case = case.kind(first, 0).zero(first, 1).exact();
        case.zero(first, 0).exact()
    };
    beside.map(pair).into()
}

/// Page areas that are just long enough, longer, and too short.
fn rooms() -> Vec<Case> {
    let new = || Case::new("rooms");
    let mut cases = vec![
        // The text of pages in a longer area, and none of those refused.
        new().shown(2, 1).text_in(248).text_in(300).text_in(247),
        new()
            .shown(2, 1)
            .kind(2, 9)
            .text()
            .zero(1, 1)
            .text()
            .length(23)
            .text(),
        new().some(1, 0).text(),
        rooms_around(new()),
        rooms_around(new().some(0, 3)),
        rooms_around(new().shown(1, 1)),
        rooms_around(new().shown(1, 1).some(0, 70)),
        rooms_around(new().shown(58, 7)),
        rooms_around(new().shown(59, 7)),
        rooms_around(new().some(0, 1).shown(117, 7)),
    ];
    let most = new().shown(MOST, 3_000);
    let needed = most.needed();
    cases.push(
        most.pages(needed)
            .pages(needed - 1)
            .pages(0)
            .pages(MOST_ROOM),
    );
    cases
}

fn rooms_around(mut case: Case) -> Case {
    let needed = case.needed();
    let short = [0, 1, 61, 62, 123, needed / 2, needed - 62, needed - 1];
    let enough = [needed, needed + 1, needed + 62, 3 * needed + 1_000];
    for room in short.into_iter().chain(enough) {
        case = case.pages(room);
    }
    case
}
