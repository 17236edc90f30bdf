//! How the two ranges of an ordered assertion lie to each other.

use crate::event::{Event, Range};

/// The sorts of ordered assertion.
pub const SORTS: [&str; 4] = ["share a byte", "touch", "no byte inside", "apart"];

/// The place in [`SORTS`] of ranges that share a byte.
pub const SHARE: usize = 0;
/// Of ranges with bytes, none of them in both, that touch at an edge.
pub const TOUCH: usize = 1;
/// Of a range of no bytes whose address is a byte of the other range.
pub const NO_BYTE_INSIDE: usize = 2;
/// Of all others.
pub const APART: usize = 3;

/// How often each sort came.
pub type Counts = [usize; SORTS.len()];

/// The event's place in [`SORTS`]; `None` if it is no ordered assertion.
pub fn sort(event: Event) -> Option<usize> {
    let Event::Ordered(a, b) = event else {
        return None;
    };
    let sort = if share_a_byte(a, b) {
        SHARE
    } else if a.has_bytes() && b.has_bytes() && (ends_at(a, b) || ends_at(b, a)) {
        TOUCH
    } else if is_inside(a, b) || is_inside(b, a) {
        NO_BYTE_INSIDE
    } else {
        APART
    };
    Some(sort)
}

/// Some byte is in both ranges.
pub fn share_a_byte(a: Range, b: Range) -> bool {
    a.bytes().any(|byte| b.covers(byte))
}

/// The first range ends where the second one starts.
fn ends_at(first: Range, second: Range) -> bool {
    first.end() == usize::from(second.address)
}

/// The first range has no byte, and its address is a byte of the second one.
fn is_inside(first: Range, second: Range) -> bool {
    !first.has_bytes() && second.covers(usize::from(first.address))
}

/// Counts the ordered assertions among events.
pub fn count(counts: &mut Counts, events: impl IntoIterator<Item = Event>) {
    for sort in events.into_iter().filter_map(sort) {
        counts[sort] += 1;
    }
}
