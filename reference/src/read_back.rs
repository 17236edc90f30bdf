//! Pages read back, line by line and column by column, and compared with their findings area. It
//! shares no code with the module that lays them out.

use crate::pages::Refused;
use std::ops::Range;

/// A line and its line feed.
const LINE: usize = 62;
const HEADING: &str = " event       site  finding          lost   kept moment  store";
/// The lines of a page that is not the last.
const FULL_PAGE: usize = 60;
/// The names by their kind; kind 0 is not shown.
const NAMES: [&str; 9] = [
    "",
    "holds",
    "lost",
    "out-of-order",
    "unlogged",
    "clean",
    "written-twice",
    "logged-twice",
    "empty",
];

/// A row: event, site, lost, kept, moment and store, and the name.
#[derive(Clone, Debug, PartialEq, Eq)]
pub struct Row {
    pub numbers: [u32; 6],
    pub name: String,
}

/// The columns of a row's numbers and of its name.
const NUMBERS: [Range<usize>; 6] = [0..6, 6..17, 33..40, 40..47, 47..54, 54..61];
const NAME: Range<usize> = 17..33;

/// The length of the pages for so many findings of a kind other than 0.
pub fn length(shown: usize) -> usize {
    let pages = shown.div_ceil(58);
    LINE * (2 * pages.max(1) + shown)
}

/// The findings of a kind other than 0 in the whole findings of an area.
pub fn shown(findings: &[u8]) -> usize {
    let kinds = findings.chunks_exact(12).map(|finding| finding[0]);
    kinds.filter(|&kind| kind != 0).count()
}

/// Checks an answer and the page area after the call: the refusal that is due and nothing changed,
/// or the pages that are due and nothing changed behind them.
pub fn check(
    findings: &[u8],
    before: &[u8],
    answer: Result<usize, Refused>,
    after: &[u8],
) -> Result<(), String> {
    let due = refusal(findings, before.len());
    if answer.err() != due {
        return Err(format!(
            "answered {answer:?}, and the refusal due is {due:?}"
        ));
    }
    let written = answer.unwrap_or(0);
    if after.len() != before.len() || after.get(written..) != before.get(written..) {
        return Err("bytes outside the pages changed".to_string());
    }
    if answer.is_err() {
        return Ok(());
    }
    check_pages(findings, &after[..written])
}

/// Checks the pages of a findings area that is not damaged.
pub fn check_pages(findings: &[u8], pages: &[u8]) -> Result<(), String> {
    let shown = shown(findings);
    if pages.len() != length(shown) {
        return Err(format!("{} bytes for {shown} rows", pages.len()));
    }
    let (read, due) = (rows(pages)?, due_rows(findings));
    match read.iter().zip(&due).find(|(read, due)| read != due) {
        Some((read, due)) => Err(format!("row {read:?} stands where {due:?} is due")),
        None if read.len() != due.len() => Err(format!("{} rows for {shown}", read.len())),
        None => Ok(()),
    }
}

/// The refusal that is due: of all faults of the area the one that comes first.
pub fn refusal(findings: &[u8], room: usize) -> Option<Refused> {
    let mut faults = Vec::new();
    if !findings.chunks_exact(12).remainder().is_empty() || findings.len() > 12 * 65_535 {
        faults.push((0, 0, 5));
    }
    for (position, finding) in (1..).zip(findings.chunks_exact(12)) {
        if finding[0] > 8 {
            faults.push((1, position, 6));
        }
        if finding[1] > 0 {
            faults.push((1, position, 7));
        }
    }
    if room < length(shown(findings)) {
        faults.push((2, 0, 16));
    }
    let first = faults.into_iter().min();
    first.map(|(_, position, number)| Refused::new(number, position))
}

/// The rows of pages, in order.
pub fn rows(pages: &[u8]) -> Result<Vec<Row>, String> {
    let lines = lines(pages)?;
    let pages: Vec<_> = lines.chunks(FULL_PAGE).collect();
    if pages.is_empty() {
        return Err("no page".to_string());
    }
    let mut rows = Vec::new();
    for (number, page) in (1..).zip(&pages) {
        let within = |problem| format!("page {number}: {problem}");
        for line in page_rows(page, number, pages.len()).map_err(within)? {
            rows.push(row(line)?);
        }
    }
    Ok(rows)
}

/// The columns of each line.
fn lines(pages: &[u8]) -> Result<Vec<&str>, String> {
    let mut lines = Vec::with_capacity(pages.len() / LINE);
    for (number, bytes) in (1..).zip(pages.chunks(LINE)) {
        let line = line(bytes);
        lines.push(line.ok_or(format!("line {number} is not 61 columns and a line feed"))?);
    }
    Ok(lines)
}

/// The 61 columns of a line, which have blanks and what can be seen.
fn line(bytes: &[u8]) -> Option<&str> {
    let columns = bytes.strip_suffix(b"\n").filter(|text| text.len() == 61)?;
    let plain = columns.iter().all(|byte| (b' '..=b'~').contains(byte));
    std::str::from_utf8(columns).ok().filter(|_| plain)
}

/// The lines between the heading and the foot.
fn page_rows<'a>(page: &[&'a str], number: usize, of: usize) -> Result<Vec<&'a str>, String> {
    let [heading, rows @ .., foot] = page else {
        return Err("a line is no page".to_string());
    };
    if *heading != HEADING {
        return Err(format!("heading `{heading}`"));
    }
    if foot.trim_end_matches(' ') != format!("page {number} of {of}") {
        return Err(format!("foot `{foot}` of {of} pages"));
    }
    if rows.is_empty() && of > 1 {
        return Err("no rows".to_string());
    }
    Ok(rows.to_vec())
}

fn row(line: &str) -> Result<Row, String> {
    let bad = || format!("row `{line}`");
    let numbers = NUMBERS.map(|columns| number(&line[columns]));
    let name = line[NAME].strip_prefix("  ").ok_or_else(bad)?;
    if numbers.contains(&None) || name.starts_with(' ') {
        return Err(bad());
    }
    Ok(Row {
        numbers: numbers.map(|number| number.expect("none is missing")),
        name: name.trim_end_matches(' ').to_string(),
    })
}

/// A plain decimal number, right in its column.
fn number(column: &str) -> Option<u32> {
    let digits = column.trim_start_matches(' ');
    let number = digits.parse::<u32>().ok()?;
    (number.to_string() == digits).then_some(number)
}

/// The rows that the pages are to have.
fn due_rows(findings: &[u8]) -> Vec<Row> {
    let mut rows = Vec::new();
    for (event, finding) in (1..).zip(findings.chunks_exact(12)) {
        let field = |low: usize| u32::from(finding[low]) + 256 * u32::from(finding[low + 1]);
        let [lost, kept, moment, store, site] = [2, 4, 6, 8, 10].map(field);
        if finding[0] != 0 {
            rows.push(Row {
                numbers: [event, site, lost, kept, moment, store],
                name: NAMES[usize::from(finding[0])].to_string(),
            });
        }
    }
    rows
}
