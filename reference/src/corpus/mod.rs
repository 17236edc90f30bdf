//! The corpus: named traces, each with the findings area and the text expected of a judge.
//!
//! Building it needs no clock and no order of a folder: it is the same each time, byte for byte.

mod drawn;
mod layout;
pub mod no_bytes;
mod refused;
pub mod run;
pub(crate) mod runs;
pub mod shared;
pub mod torn;

use crate::check::check;
use crate::finding::Kind;
use crate::outcome::{area_after, listing, Outcome, OF_TRACES};
use crate::script::Script;
use crate::trace::{self, RECORD};
use crate::{images, judge, judge_by_images};
use std::collections::{BTreeMap, BTreeSet};
use std::fmt::Write;
use std::path::{Path, PathBuf};

/// Every byte of a findings area before judging.
pub const AREA_BEFORE: u8 = 0xa5;

const MAX_NAME: usize = 64;
const MAX_TRACE: usize = 65_537;
const MAX_AREA: usize = 65_536;
const MAX_TEXT: usize = 262_144;

/// A trace of the corpus before it is judged.
#[derive(Clone, Debug, PartialEq, Eq)]
pub struct Case {
    pub name: String,
    pub trace: Vec<u8>,
    pub area_len: usize,
}

/// A trace of the corpus with what is expected of it.
#[derive(Clone, Debug, PartialEq, Eq)]
pub struct Entry {
    pub case: Case,
    pub outcome: Outcome,
    /// Judged by images too, with the same outcome.
    pub both_ways: bool,
}

#[derive(Clone, Debug, PartialEq, Eq)]
pub struct Corpus {
    pub entries: Vec<Entry>,
}

/// The folder of the papers' scripts, beside `src`.
pub fn papers_folder() -> PathBuf {
    Path::new(env!("CARGO_MANIFEST_DIR")).join("papers")
}

impl Corpus {
    /// Makes every trace and judges it; `say` gets lines of progress.
    pub fn build(papers: &Path, say: &mut dyn FnMut(&str)) -> Result<Corpus, String> {
        let mut cases = own_cases();
        cases.extend(paper_cases(papers)?);
        check_names(&cases)?;
        let mut entries = Vec::with_capacity(cases.len());
        for case in cases {
            entries.push(entry(case)?);
            if entries.len() % 200 == 0 {
                say(&format!("{} traces judged", entries.len()));
            }
        }
        let corpus = Corpus { entries };
        for (group, count) in corpus.groups() {
            say(&format!("{group}: {count}"));
        }
        let both = corpus.entries.iter().filter(|e| e.both_ways).count();
        let all = corpus.entries.len();
        say(&format!("{all} traces, {both} of them judged both ways"));
        Ok(corpus)
    }

    /// How many traces each group has, by the part of the name in front of the first slash.
    pub fn groups(&self) -> BTreeMap<&str, usize> {
        let mut groups = BTreeMap::new();
        for entry in &self.entries {
            let group = entry.case.name.split('/').next().unwrap_or("");
            *groups.entry(group).or_insert(0) += 1;
        }
        groups
    }

    /// The corpus file.
    pub fn to_bytes(&self) -> Vec<u8> {
        let mut bytes = Vec::new();
        for entry in &self.entries {
            let case = &entry.case;
            let area = area_after(&entry.outcome, case.area_len, AREA_BEFORE);
            let text = listing(&entry.outcome);
            let parts = [case.name.as_bytes(), &case.trace, &area, text.as_bytes()];
            for part in parts {
                let length = u32::try_from(part.len()).expect("a part is short");
                bytes.extend_from_slice(&length.to_le_bytes());
            }
            for part in parts {
                bytes.extend_from_slice(part);
            }
        }
        bytes
    }

    /// The summary file: what a judge that differs nowhere comes to.
    pub fn summary(&self) -> String {
        let outcomes = || self.entries.iter().map(|entry| &entry.outcome);
        let mut text = String::new();
        let mut line = |words: &str, count: usize| {
            writeln!(text, "{words} {count}").expect("a string takes text");
        };
        line("traces", outcomes().count());
        line("accepted", outcomes().filter_map(Outcome::report).count());
        for number in OF_TRACES {
            let refused = outcomes().filter_map(Outcome::refusal);
            let count = refused.filter(|refusal| refusal.number == number).count();
            line(&format!("refused by {number}"), count);
        }
        for kind in Kind::ALL {
            let reports = outcomes().filter_map(Outcome::report);
            let findings = reports.flat_map(|report| &report.findings);
            let count = findings.filter(|finding| finding.kind == kind).count();
            line(kind.name(), count);
        }
        line("differ", 0);
        text
    }
}

/// The cases that need no file.
fn own_cases() -> Vec<Case> {
    let mut cases = Cases::default();
    runs::add(&mut cases);
    torn::add(&mut cases);
    no_bytes::add(&mut cases);
    shared::add(&mut cases);
    refused::add(&mut cases);
    layout::add(&mut cases);
    drawn::add(&mut cases);
    cases.all
}

/// The papers' scripts, sorted by name. A missing folder has none.
fn paper_cases(folder: &Path) -> Result<Vec<Case>, String> {
    let mut cases = Cases::default();
    for path in paper_scripts(folder)? {
        let shown = path.display();
        let text = std::fs::read_to_string(&path).map_err(|error| format!("{shown}: {error}"))?;
        let script = Script::parse(&text)
            .map_err(|mistake| format!("{shown}:{}: {}", mistake.at, mistake.what))?;
        let checked = check(&script);
        if !checked.differences.is_empty() {
            return Err(format!("{shown}: {}", checked.differences.join("; ")));
        }
        let stem = path.file_stem().and_then(|stem| stem.to_str());
        let stem = stem.ok_or_else(|| format!("{shown}: the name is not text"))?;
        cases.add(&format!("papers/{stem}"), script.trace());
    }
    Ok(cases.all)
}

/// The files `*.events` of a folder, sorted. A missing folder has none.
pub fn paper_scripts(folder: &Path) -> Result<Vec<PathBuf>, String> {
    if !folder.exists() {
        return Ok(Vec::new());
    }
    let failure = |error: std::io::Error| format!("{}: {error}", folder.display());
    let mut paths = Vec::new();
    for entry in std::fs::read_dir(folder).map_err(failure)? {
        let path = entry.map_err(failure)?.path();
        if path
            .extension()
            .is_some_and(|extension| extension == "events")
        {
            paths.push(path);
        }
    }
    paths.sort();
    Ok(paths)
}

fn check_names(cases: &[Case]) -> Result<(), String> {
    let mut names = BTreeSet::new();
    for case in cases {
        let name = &case.name;
        if name.len() > MAX_NAME || !name.bytes().all(|byte| byte.is_ascii_graphic()) {
            return Err(format!("{name}: not a name of at most {MAX_NAME} letters"));
        }
        if !names.insert(name) {
            return Err(format!("{name}: the name is used twice"));
        }
    }
    Ok(())
}

fn entry(case: Case) -> Result<Entry, String> {
    let name = &case.name;
    let outcome = judge(&case.trace, case.area_len);
    let both_ways = images::small_enough(&case.trace);
    if both_ways && judge_by_images(&case.trace, case.area_len) != outcome {
        return Err(format!("{name}: the two ways differ"));
    }
    let bounds = [
        ("trace", case.trace.len(), MAX_TRACE),
        ("area", case.area_len, MAX_AREA),
        ("text", listing(&outcome).len(), MAX_TEXT),
    ];
    for (part, length, most) in bounds {
        if length > most {
            return Err(format!("{name}: {part} of {length} bytes, over {most}"));
        }
    }
    Ok(Entry {
        case,
        outcome,
        both_ways,
    })
}

/// Collects cases.
#[derive(Default)]
struct Cases {
    all: Vec<Case>,
}

impl Cases {
    /// A trace with an area just long enough; of 24 bytes if the trailer does not say how long.
    fn add(&mut self, name: &str, trace: Vec<u8>) {
        let area_len = match trace::open(&trace) {
            Ok(body) => RECORD * body.count(),
            Err(_) => 2 * RECORD,
        };
        self.add_with_area(name, trace, area_len);
    }

    fn add_with_area(&mut self, name: &str, trace: Vec<u8>, area_len: usize) {
        let name = name.to_string();
        self.all.push(Case {
            name,
            trace,
            area_len,
        });
    }

    /// A trace from the lines of a script, parted by semicolons.
    fn run(&mut self, name: &str, lines: u16, events: &str) {
        self.add(name, trace::assemble(lines, &[], &records(events)));
    }
}

/// The records of the lines of a script, parted by semicolons. Sites count from 2.
fn records(events: &str) -> Vec<[u8; RECORD]> {
    let text = format!("lines 1\n{}", events.replace(';', "\n"));
    let script = Script::parse(&text).unwrap_or_else(|mistake| panic!("{events}: {mistake:?}"));
    script.events.iter().map(|event| event.record).collect()
}

/// The same words several times, as lines of a script.
fn repeat(event: &str, times: usize) -> String {
    vec![event; times].join(";")
}
