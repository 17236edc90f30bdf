//! The findings of a findings area laid out for print, on pages of fixed lines.

use crate::finding::{Finding, Kind};
use crate::trace::RECORD;

/// The columns of a line; a line feed stands behind them.
pub const COLUMNS: usize = 61;
/// The most findings on a page.
pub const ROWS: usize = 58;
/// The most findings in a findings area.
pub const MOST_FINDINGS: usize = 65_535;

/// A refusal: its number, and the position from 1 of the finding that is damaged, or 0.
#[derive(Clone, Copy, Debug, PartialEq, Eq, Hash)]
pub struct Refused {
    pub number: u8,
    pub position: usize,
}

impl Refused {
    pub fn new(number: u8, position: usize) -> Refused {
        Refused { number, position }
    }
}

/// The pages of a findings area, for a page area of so many bytes. Refusals 5; then 6 and 7 from
/// finding to finding; then 16.
pub fn lay_out(findings: &[u8], room: usize) -> Result<Vec<u8>, Refused> {
    let text = text(&shown(&read(findings)?));
    if text.len() > room {
        return Err(Refused::new(16, 0));
    }
    Ok(text.into_bytes())
}

/// Lays the pages out at the start of the page area, and gives their length. A refused call writes
/// nothing, and the bytes behind the pages do not change.
pub fn write(findings: &[u8], area: &mut [u8]) -> Result<usize, Refused> {
    let pages = lay_out(findings, area.len())?;
    area[..pages.len()].copy_from_slice(&pages);
    Ok(pages.len())
}

/// The findings of a findings area. Refusals 5, 6 and 7.
fn read(findings: &[u8]) -> Result<Vec<Finding>, Refused> {
    if !findings.len().is_multiple_of(RECORD) || findings.len() / RECORD > MOST_FINDINGS {
        return Err(Refused::new(5, 0));
    }
    let finding = |(at, bytes): (usize, &[u8])| {
        let bytes = bytes
            .try_into()
            .expect("a chunk has the bytes of a finding");
        Finding::from_bytes(bytes).map_err(|number| Refused::new(number, at + 1))
    };
    let chunks = findings.chunks_exact(RECORD).enumerate();
    chunks.map(finding).collect()
}

/// The findings of a kind other than 0, each with its event number.
fn shown(findings: &[Finding]) -> Vec<(usize, &Finding)> {
    let numbered = (1..).zip(findings);
    numbered
        .filter(|(_, finding)| finding.kind != Kind::None)
        .collect()
}

fn text(shown: &[(usize, &Finding)]) -> String {
    let mut pages: Vec<_> = shown.chunks(ROWS).collect();
    if pages.is_empty() {
        pages.push(&[]);
    }
    let mut text = String::with_capacity((COLUMNS + 1) * (2 * pages.len() + shown.len()));
    for (number, rows) in (1..).zip(&pages) {
        put_line(&mut text, &heading());
        for (event, finding) in *rows {
            put_line(&mut text, &row(*event, finding));
        }
        put_line(&mut text, &format!("page {number} of {}", pages.len()));
    }
    text
}

/// Puts a line, padded on the right.
fn put_line(text: &mut String, line: &str) {
    *text += &format!("{line:COLUMNS$}\n");
}

fn heading() -> String {
    let event = ["event", "site"];
    columns(event, "finding", ["lost", "kept", "moment", "store"])
}

fn row(event: usize, finding: &Finding) -> String {
    let fields = [finding.lost, finding.kept, finding.moment, finding.store];
    columns(
        [&event.to_string(), &finding.site.to_string()],
        finding.kind.name(),
        fields.map(|field| field.to_string()),
    )
}

/// The words of a line in their columns.
fn columns(front: [&str; 2], name: &str, fields: [impl AsRef<str>; 4]) -> String {
    let [event, site] = front;
    let [lost, kept, moment, store] = fields.each_ref().map(AsRef::as_ref);
    format!("{event:>6}{site:>11}  {name:<14}{lost:>7}{kept:>7}{moment:>7}{store:>7}")
}
