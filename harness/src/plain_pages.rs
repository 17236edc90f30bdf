//! Findings laid out for print in plain Rust, not proved: a pass that checks and counts, and one
//! that writes.

use reference::trace::RECORD;

/// The bytes of a line, its line feed among them.
pub const LINE: usize = 62;
/// The most rows of a page.
pub const ROWS: usize = 58;
/// The most findings of an area.
pub const MOST_FINDINGS: usize = 65_535;

const HEADING: &[u8; LINE] = b" event       site  finding          lost   kept moment  store\n";
/// The place of the name in a row.
const NAME: usize = 19;
const NAMES: [&[u8]; 9] = [
    b"none",
    b"holds",
    b"lost",
    b"out-of-order",
    b"unlogged",
    b"clean",
    b"written-twice",
    b"logged-twice",
    b"empty",
];
/// Where the columns of lost, kept, moment, store and site end: the order of their bytes.
const ENDS: [usize; 5] = [40, 47, 54, 61, 17];

/// Lays the findings out in the page area. The answer is the refusal's number or 0, the position,
/// and the length written.
pub fn lay_out(findings: &[u8], area: &mut [u8], answer: &mut [u32; 3]) {
    *answer = match counted(findings) {
        Ok(rows) if length(rows) > area.len() => [16, 0, 0],
        Ok(rows) => {
            write(findings, rows, area);
            [0, 0, length(rows) as u32]
        }
        Err((number, position)) => [number, position as u32, 0],
    };
}

/// The rows of the pages, or the refusal: 5, 6 or 7.
fn counted(findings: &[u8]) -> Result<usize, (u32, usize)> {
    if !findings.len().is_multiple_of(RECORD) || findings.len() > RECORD * MOST_FINDINGS {
        return Err((5, 0));
    }
    let mut rows = 0;
    for (finding, position) in findings.chunks_exact(RECORD).zip(1..) {
        let (kind, zero) = (finding[0], finding[1]);
        if kind > 8 {
            return Err((6, position));
        }
        if zero > 0 {
            return Err((7, position));
        }
        rows += usize::from(kind > 0);
    }
    Ok(rows)
}

fn pages(rows: usize) -> usize {
    rows.div_ceil(ROWS).max(1)
}

/// The length of the pages of so many rows.
pub fn length(rows: usize) -> usize {
    LINE * (2 * pages(rows) + rows)
}

fn write(findings: &[u8], rows: usize, area: &mut [u8]) {
    let pages = pages(rows);
    let mut lines = area.chunks_exact_mut(LINE);
    let mut line = || lines.next().expect("the area has room for every line");
    let shown = findings.chunks_exact(RECORD).zip(1..);
    let mut shown = shown.filter(|(finding, _)| finding[0] != 0);
    for page in 1..=pages {
        line().copy_from_slice(HEADING);
        for (finding, event) in shown.by_ref().take(ROWS) {
            write_row(line(), event, finding);
        }
        write_foot(line(), page, pages);
    }
}

fn write_row(line: &mut [u8], event: u32, finding: &[u8]) {
    blank(line);
    put_number(line, 6, event);
    let name = NAMES[usize::from(finding[0])];
    line[NAME..NAME + name.len()].copy_from_slice(name);
    for (field, end) in finding[2..].chunks_exact(2).zip(ENDS) {
        put_number(
            line,
            end,
            u32::from(u16::from_le_bytes([field[0], field[1]])),
        );
    }
}

fn write_foot(line: &mut [u8], page: usize, pages: usize) {
    blank(line);
    let foot = format!("page {page} of {pages}");
    line[..foot.len()].copy_from_slice(foot.as_bytes());
}

/// Blanks and a line feed.
fn blank(line: &mut [u8]) {
    line.fill(b' ');
    line[LINE - 1] = b'\n';
}

/// Puts the digits of a number in front of a place.
fn put_number(line: &mut [u8], end: usize, mut number: u32) {
    for place in line[..end].iter_mut().rev() {
        *place = b'0' + (number % 10) as u8;
        number /= 10;
        if number == 0 {
            return;
        }
    }
}
