//! `differential`: layouts of findings compared with the unrelated one on random findings areas.

use crate::areas::{self, rows, Area};
use crate::differential::{
    bytes, counted, first_different, random_for, saved, spread, target_file, TRACES,
};
use crate::plain_pages::{LINE, MOST_FINDINGS, ROWS};
use reference::outcome::findings_bytes;
use reference::pages;
use reference::random::Random;
use reference::trace::RECORD;
use std::hint::black_box;
use std::ops::{AddAssign, Range};
use std::path::Path;

/// The file in `target/` that takes a findings area with a difference.
const FILE: &str = "harness-difference.findings";

/// Lays findings out in a page area. The answer is the refusal's number or 0, the position, and the
/// length written.
pub type LayOut = fn(&[u8], &mut [u8], &mut [u32; 3]);

/// A layout, and the name that it is reported with.
#[derive(Clone, Copy)]
pub struct Layout {
    pub name: &'static str,
    pub call: LayOut,
}

/// The unrelated layout.
fn reference_pages(findings: &[u8], area: &mut [u8], answer: &mut [u32; 3]) {
    *answer = match pages::write(findings, area) {
        Ok(length) => [0, 0, length as u32],
        Err(refused) => [refused.number.into(), refused.position as u32, 0],
    };
}

/// What a call can change: a page area and an answer, each between guards.
#[derive(Clone, PartialEq, Eq)]
pub struct Memory {
    pub buffer: Vec<u8>,
    pub area: Range<usize>,
    numbers: Numbers,
}

/// The arrays stand in this order without gaps.
#[derive(Clone, Debug, PartialEq, Eq)]
#[repr(C)]
struct Numbers {
    before: [u32; 4],
    answer: [u32; 3],
    behind: [u32; 4],
}

impl Memory {
    /// Every byte and every number is random; the guards of the area have 16 to 31 bytes.
    pub fn new(random: &mut Random, room: usize) -> Memory {
        let start = 16 + random.below(16);
        let area = start..start + room;
        let behind = 16 + random.below(16);
        let buffer = bytes(random, area.end + behind);
        let mut any = || random.bits() as u32;
        let numbers = Numbers {
            before: std::array::from_fn(|_| any()),
            answer: std::array::from_fn(|_| any()),
            behind: std::array::from_fn(|_| any()),
        };
        Memory {
            buffer,
            area,
            numbers,
        }
    }

    /// The memory after a call, with an answer before it that no call gives; and whether the
    /// findings are as they were.
    pub fn after(&self, call: LayOut, findings: &[u8]) -> (Memory, bool) {
        let mut memory = self.clone();
        let given = black_box(findings.to_vec());
        let area = &mut memory.buffer[memory.area.clone()];
        // The compiler may not take the guards for unchanged.
        let numbers = black_box(&mut memory.numbers);
        numbers.answer = [u32::MAX; 3];
        call(&given, area, &mut numbers.answer);
        (memory, black_box(given) == findings)
    }

    pub fn answer(&self) -> [u32; 3] {
        self.numbers.answer
    }

    /// Whether the guards around the answer are those of another memory.
    pub fn same_guards(&self, other: &Memory) -> bool {
        let guards = |memory: &Memory| (memory.numbers.before, memory.numbers.behind);
        guards(self) == guards(other)
    }

    /// The name of a byte of the buffer: before, in or behind the area.
    pub fn place(&self, at: usize) -> String {
        let Range { start, end } = self.area;
        if at < start {
            format!("byte {} before the page area", start - at)
        } else if at < end {
            let byte = at - start;
            let (line, column) = (byte / LINE + 1, byte % LINE + 1);
            format!("page area byte {byte}, line {line} column {column}")
        } else {
            format!("byte {} behind the page area", at - end)
        }
    }
}

/// A findings area, and the page area that it is laid out in.
struct Given {
    area: Area,
    memory: Memory,
}

/// Findings area `number` of a seed.
fn given(seed: u64, number: u64) -> Given {
    let mut random = random_for(seed, number);
    let area = areas::drawn(&mut random);
    let room = areas::room(&mut random, &area.findings);
    let memory = Memory::new(&mut random, room);
    Given { area, memory }
}

impl Given {
    /// The findings that the unrelated checker has: of a trace those that it judges itself.
    fn expected_findings(&self) -> Vec<u8> {
        match &self.area.trace {
            Some(trace) => findings_bytes(&reference::judge(trace, trace.len())),
            None => self.area.findings.clone(),
        }
    }
}

/// What the areas covered, by the answers of the unrelated layout: a name and a number each.
#[derive(Clone, Default)]
struct Counts(Vec<(&'static str, u64)>);

impl Counts {
    fn of(given: &Given, [number, _, written]: [u32; 3]) -> Counts {
        let findings = &given.area.findings;
        let (shown, room) = (rows(findings), given.memory.area.len());
        let (laid, longer) = (number == 0, room > written as usize);
        let judged = given.area.trace.is_some();
        let left_out = RECORD * shown < findings.len();
        let full = shown > 0 && shown.is_multiple_of(ROWS);
        let one_more = shown > ROWS && shown % ROWS == 1;
        Counts(vec![
            ("findings areas", 1),
            ("findings areas that the judge left", judged.into()),
            ("pages laid out", laid.into()),
            ("pages refused by 5", (number == 5).into()),
            ("pages refused by 6", (number == 6).into()),
            ("pages refused by 7", (number == 7).into()),
            ("pages refused by 16", (number == 16).into()),
            ("page area just long enough", (laid && !longer).into()),
            ("page area longer", (laid && longer).into()),
            ("no row", (laid && shown == 0).into()),
            ("last page full", (laid && full).into()),
            ("one row on the last page", (laid && one_more).into()),
            ("findings of kind 0 left out", (laid && left_out).into()),
            ("1,000 pages or more", (laid && shown > 999 * ROWS).into()),
            ("65,535 rows", (laid && shown == MOST_FINDINGS).into()),
            ("rows", if laid { shown as u64 } else { 0 }),
            ("bytes of pages", written.into()),
        ])
    }

    fn named(&self) -> Vec<(String, u64)> {
        let named = self.0.iter();
        named
            .map(|(name, count)| (name.to_string(), *count))
            .collect()
    }
}

impl AddAssign for Counts {
    fn add_assign(&mut self, other: Counts) {
        if self.0.is_empty() {
            *self = other;
            return;
        }
        for ((_, count), (_, more)) in self.0.iter_mut().zip(other.0) {
            *count += more;
        }
    }
}

/// A findings area that a layout treats differently.
struct Difference {
    layout: &'static str,
    number: u64,
    findings: Vec<u8>,
    /// Whether the call left them as they were.
    kept: bool,
    expected: Memory,
    returned: Memory,
}

impl Difference {
    /// What differs, in lines. The findings area goes to the file.
    fn report(&self, seed: u64, file: &Path) -> String {
        let (layout, number) = (self.layout, self.number);
        format!(
            "differential: layout {layout} differs from reference on findings area {number} of seed {seed}\n\
             reference: {:?}\n{layout}: {:?}\n{}\n\
             findings area of {} bytes, page area of {} bytes\n\
             it is the last findings area of: harness differential {number} {seed}\n{}",
            self.expected.numbers,
            self.returned.numbers,
            self.first_byte(),
            self.findings.len(),
            self.expected.area.len(),
            saved(file, &self.findings)
        )
    }

    fn first_byte(&self) -> String {
        let (expected, returned) = (&self.expected, &self.returned);
        let Some(at) = first_different(&expected.buffer, &returned.buffer) else {
            let words = match self.kept {
                true => "no byte of the page area differs",
                false => "the findings changed",
            };
            return words.to_string();
        };
        let (place, layout) = (expected.place(at), self.layout);
        let (expected, returned) = (expected.buffer[at], returned.buffer[at]);
        format!("{place}: reference {expected:02x}h, {layout} {returned:02x}h")
    }
}

/// Compares every layout with the unrelated one on the findings areas of a seed.
fn compare(layouts: &[Layout], areas: u64, seed: u64) -> Result<Counts, Box<Difference>> {
    spread("findings areas", areas, |_, number, counts: &mut Counts| {
        let given = given(seed, number);
        let findings = &given.area.findings;
        let (expected, _) = given
            .memory
            .after(reference_pages, &given.expected_findings());
        *counts += Counts::of(&given, expected.answer());
        for layout in layouts {
            let (returned, kept) = given.memory.after(layout.call, findings);
            if returned != expected || !kept {
                return Err(Box::new(Difference {
                    layout: layout.name,
                    number,
                    findings: findings.clone(),
                    kept,
                    expected,
                    returned,
                }));
            }
        }
        Ok(())
    })
}

/// The lines for standard output, or, for a failure, those for standard error.
pub fn command(layouts: &[Layout], areas: u64, seed: u64) -> Result<String, String> {
    match compare(layouts, areas, seed) {
        Ok(counts) => {
            let text = counted(&counts.named(), areas >= TRACES)?;
            let names: Vec<_> = layouts.iter().map(|layout| layout.name).collect();
            let names = names.join(", ");
            Ok(format!(
                "{text}layouts compared with reference: {names}\nseed {seed}\ndiffer 0\n"
            ))
        }
        Err(difference) => Err(difference.report(seed, &target_file(FILE))),
    }
}

#[cfg(test)]
pub mod tests {
    use super::*;
    use crate::pages::lay_out;
    use crate::plain_pages::{self, length};

    pub const RIGHT: Layout = Layout {
        name: "right",
        call: lay_out,
    };

    /// Layouts that write or answer what no call may, which needs no model to be seen.
    pub const WRONG: [Layout; 5] = [
        wrong("touches the byte behind", |findings, area, answer| {
            lay_out(findings, area, answer);
            if let Some(byte) = area.get_mut(answer[2] as usize) {
                *byte ^= u8::from(answer[0] == 0);
            }
        }),
        wrong("writes before it gives 16", |findings, area, answer| {
            lay_out(findings, area, answer);
            if answer[0] == 16 {
                let heading = HEADING.bytes().zip(area);
                heading.for_each(|(byte, place)| *place = byte);
            }
        }),
        wrong(
            "writes the rows before a damaged one",
            |findings, area, answer| {
                lay_out(findings, area, answer);
                if let [6 | 7, position, _] = *answer {
                    let before = RECORD * (position as usize - 1);
                    lay_out(&findings[..before], area, &mut [0; 3]);
                }
            },
        ),
        wrong("gives a length with a refusal", |findings, area, answer| {
            lay_out(findings, area, answer);
            answer[2] = answer[2].max(length(0) as u32);
        }),
        wrong("gives a position with 16", |findings, area, answer| {
            lay_out(findings, area, answer);
            answer[1] += u32::from(answer[0] == 16);
        }),
    ];

    /// Layouts whose pages or refusals are others.
    const WRONG_PAGES: [Layout; 16] = [
        wrong("has 59 rows to a page", |findings, area, answer| {
            relaid(findings, area, answer, |_, rows| {
                paged(&rows, 59, |_, pages| pages)
            });
        }),
        wrong("has 57 rows to a page", |findings, area, answer| {
            relaid(findings, area, answer, |_, rows| {
                paged(&rows, 57, |_, pages| pages)
            });
        }),
        wrong(
            "is a page short in the foot of full pages",
            |findings, area, answer| {
                relaid(findings, area, answer, |_, rows| {
                    paged(&rows, ROWS, |rows, pages| match rows % ROWS {
                        0 if rows > 0 => pages - 1,
                        _ => pages,
                    })
                });
            },
        ),
        wrong(
            "has a page without rows behind full ones",
            |findings, area, answer| {
                relaid(findings, area, answer, |_, rows| {
                    let mut lines = paged(&rows, ROWS, |_, pages| pages);
                    if !rows.is_empty() && rows.len() % ROWS == 0 {
                        lines.extend(paged(&[], ROWS, |_, pages| pages));
                    }
                    lines
                });
            },
        ),
        wrong("has no page without rows", |findings, area, answer| {
            relaid(findings, area, answer, |_, rows| match rows.len() {
                0 => Vec::new(),
                _ => paged(&rows, ROWS, |_, pages| pages),
            });
        }),
        wrong(
            "loses a row at the end of a page",
            |findings, area, answer| {
                relaid(findings, area, answer, |_, mut rows| {
                    let mut place = 0;
                    rows.retain(|_| {
                        place += 1;
                        place == 1 || place % ROWS != 1
                    });
                    paged(&rows, ROWS, |_, pages| pages)
                });
            },
        ),
        wrong(
            "has the first row of a page twice",
            |findings, area, answer| {
                relaid(findings, area, answer, |_, mut rows| {
                    if let Some(row) = rows.get(ROWS).cloned() {
                        rows.insert(ROWS, row);
                    }
                    paged(&rows, ROWS, |_, pages| pages)
                });
            },
        ),
        wrong("has the site right in 10", |findings, area, answer| {
            each_row(findings, area, answer, |_, row| {
                format!("{}{} ", &row[..6], &row[7..])
            });
        }),
        wrong(
            "numbers the findings that it shows",
            |findings, area, answer| {
                each_row(findings, area, answer, |place, row| {
                    format!("{:>6}{}", place + 1, &row[6..])
                });
            },
        ),
        wrong("numbers events from 0", |findings, area, answer| {
            each_row(findings, area, answer, |_, row| {
                let event: u32 = row[..6].trim().parse().expect("a number");
                format!("{:>6}{}", event - 1, &row[6..])
            });
        }),
        wrong("has kept before lost", |findings, area, answer| {
            each_row(findings, area, answer, |_, row| {
                let [front, lost, kept, behind] =
                    [&row[..33], &row[33..40], &row[40..47], &row[47..]];
                [front, kept, lost, behind].concat()
            });
        }),
        wrong("shows kind 0", |findings, area, answer| {
            relaid(findings, area, answer, |findings, _| {
                paged(&with_none(findings), ROWS, |_, pages| pages)
            });
        }),
        wrong("gives 7 before 6", |findings, area, answer| {
            lay_out(findings, area, answer);
            if let [6, position, _] = *answer {
                let zero = findings[RECORD * (position as usize - 1) + 1];
                answer[0] += u32::from(zero > 0);
            }
        }),
        wrong("gives 16 before 6 and 7", |findings, area, answer| {
            lay_out(findings, area, answer);
            if matches!(answer[0], 6 | 7) && area.len() < length(rows(findings)) {
                *answer = [16, 0, 0];
            }
        }),
        wrong("takes no zero byte of kind 0", |findings, area, answer| {
            let mut passed = findings.to_vec();
            for finding in passed.chunks_exact_mut(RECORD) {
                finding[1] *= u8::from(finding[0] > 0);
            }
            lay_out(&passed, area, answer);
        }),
        wrong(
            "gives 5 for 65,535 findings",
            |findings, area, answer| match findings.len() == RECORD * MOST_FINDINGS {
                true => *answer = [5, 0, 0],
                false => lay_out(findings, area, answer),
            },
        ),
    ];

    const HEADING: &str = " event       site  finding          lost   kept moment  store";

    const fn wrong(name: &'static str, call: LayOut) -> Layout {
        Layout { name, call }
    }

    /// The rows of pages, without headings and feet.
    fn rows_of(pages: &[u8]) -> Vec<String> {
        let text = std::str::from_utf8(pages).expect("text");
        let rows = text.lines();
        rows.filter(|line| *line != HEADING && !line.starts_with("page "))
            .map(String::from)
            .collect()
    }

    /// Pages of so many rows; the feet have the pages that follow from rows and pages.
    fn paged(rows: &[String], most: usize, of: fn(usize, usize) -> usize) -> Vec<String> {
        let mut pages: Vec<_> = rows.chunks(most).collect();
        if pages.is_empty() {
            pages.push(&[]);
        }
        let mut lines = Vec::new();
        for (number, page) in (1..).zip(&pages) {
            lines.push(HEADING.to_string());
            lines.extend(page.iter().cloned());
            lines.push(format!("page {number} of {}", of(rows.len(), pages.len())));
        }
        lines
    }

    /// Lays pages out, and then lines made from their rows in their place, as far as there is room.
    fn relaid(
        findings: &[u8],
        area: &mut [u8],
        answer: &mut [u32; 3],
        lines: fn(&[u8], Vec<String>) -> Vec<String>,
    ) {
        lay_out(findings, area, answer);
        if answer[0] != 0 {
            return;
        }
        let lines = lines(findings, rows_of(&area[..answer[2] as usize]));
        let lines = lines.iter().map(|line| format!("{line:61}\n"));
        let text = lines.collect::<String>();
        let length = text.len().min(area.len());
        area[..length].copy_from_slice(&text.as_bytes()[..length]);
        answer[2] = length as u32;
    }

    /// Lays pages out, and then changes each row in its place.
    fn each_row(
        findings: &[u8],
        area: &mut [u8],
        answer: &mut [u32; 3],
        change: fn(usize, &str) -> String,
    ) {
        lay_out(findings, area, answer);
        let lines = area[..answer[2] as usize].chunks_exact_mut(LINE);
        let rows = lines.filter(|line| !matches!(line, [b'p', ..] | [_, b'e', ..]));
        for (place, row) in rows.enumerate() {
            let text = std::str::from_utf8(&row[..LINE - 1]).expect("text");
            let changed = change(place, text);
            row[..LINE - 1].copy_from_slice(changed.as_bytes());
        }
    }

    /// The rows of all findings, those of kind 0 with the name none.
    fn with_none(findings: &[u8]) -> Vec<String> {
        let mut all = findings.to_vec();
        for finding in all
            .chunks_exact_mut(RECORD)
            .filter(|finding| finding[0] == 0)
        {
            finding[0] = 2;
        }
        let mut area = vec![0; length(all.len() / RECORD)];
        lay_out(&all, &mut area, &mut [0; 3]);
        let kinds = findings.chunks_exact(RECORD).map(|finding| finding[0]);
        let rows = rows_of(&area).into_iter().zip(kinds);
        rows.map(|(row, kind)| match kind {
            0 => row.replace("  lost", "  none"),
            _ => row,
        })
        .collect()
    }

    fn difference(layouts: &[Layout]) -> Box<Difference> {
        let found = compare(layouts, 3_000, 1).err();
        found.unwrap_or_else(|| panic!("no difference found: {}", layouts[0].name))
    }

    #[test]
    fn the_proved_and_the_plain_layout_agree() {
        let plain = Layout {
            name: "plain",
            call: plain_pages::lay_out,
        };
        let counts = compare(&[RIGHT, plain], 5_000, 5).ok().unwrap();
        let named = counts.named();
        assert_eq!(named[0], ("findings areas".to_string(), 5_000));
        assert!(counted(&named, true).is_ok(), "{named:?}");
    }

    #[test]
    fn every_wrong_layout_is_found() {
        for layout in WRONG.iter().chain(&WRONG_PAGES) {
            let found = difference(&[RIGHT, *layout]);
            assert_eq!(found.layout, layout.name);
            let again = difference(&[*layout]);
            assert_eq!(found.number, again.number, "{}", layout.name);
        }
    }

    /// With the right numbers, the pages of the wrong layouts are right.
    #[test]
    fn only_what_is_named_is_wrong() {
        let relays: [LayOut; 2] = [
            |findings, area, answer| {
                relaid(findings, area, answer, |_, rows| {
                    paged(&rows, ROWS, |_, pages| pages)
                });
            },
            |findings, area, answer| each_row(findings, area, answer, |_, row| row.to_string()),
        ];
        for call in relays {
            let name = "relaid";
            assert!(compare(&[Layout { name, call }], 500, 3).is_ok());
        }
    }

    #[test]
    fn a_difference_is_reported_and_its_findings_saved() {
        let found = difference(&[WRONG[0]]);
        let file = target_file("harness-test-difference.findings");
        let report = found.report(1, &file);
        let saved = std::fs::read(&file).unwrap();
        std::fs::remove_file(&file).unwrap();
        assert_eq!(saved, given(1, found.number).area.findings);
        let [_, _, length] = found.expected.answer();
        let (line, column) = (length as usize / LINE + 1, length as usize % LINE + 1);
        for part in [
            format!("findings area {} of seed 1\n", found.number),
            format!("page area byte {length}, line {line} column {column}: reference "),
            format!("harness differential {} 1\n", found.number),
            "harness-test-difference.findings".to_string(),
        ] {
            assert!(report.contains(&part), "{part}: {report}");
        }
    }

    #[test]
    fn guards_and_findings_are_compared() {
        let given = given(1, 1);
        for change in [
            |memory: &mut Memory| memory.buffer[memory.area.start - 1] ^= 1,
            |memory: &mut Memory| memory.buffer[memory.area.end] ^= 1,
            |memory: &mut Memory| memory.numbers.before[3] ^= 1,
            |memory: &mut Memory| memory.numbers.behind[0] ^= 1,
        ] {
            let mut changed = given.memory.clone();
            change(&mut changed);
            assert!(changed != given.memory);
        }
        assert!(given.memory.after(lay_out, &given.area.findings).1);
    }

    #[test]
    fn a_findings_area_follows_from_seed_and_number() {
        let (one, same, other) = (given(1, 9), given(1, 9), given(2, 9));
        assert!(one.area.findings == same.area.findings && one.memory == same.memory);
        assert!(one.memory != other.memory);
    }

    #[test]
    fn places_are_named() {
        let memory = Memory::new(&mut Random::new(1), 200);
        let Range { start, end } = memory.area;
        assert_eq!(memory.place(start - 1), "byte 1 before the page area");
        assert_eq!(
            memory.place(start + 62),
            "page area byte 62, line 2 column 1"
        );
        assert_eq!(memory.place(end), "byte 0 behind the page area");
    }
}
