//! The script of events: a trace as text, one event a line, with what is expected of it.

use crate::event::{Event, Range, Record};
use crate::finding::{Finding, Kind};
use crate::outcome::{Refusal, OF_TRACES};
use crate::trace::{self, RECORD};
use std::fmt::Write;

/// A script as it was read.
#[derive(Clone, Debug, Default, PartialEq, Eq)]
pub struct Script {
    /// The window's lines, written as given.
    pub lines: u16,
    /// Bytes in front of the records.
    pub free: Vec<u8>,
    pub events: Vec<Scripted>,
    /// The refusal that the whole trace is expected to get.
    pub refused: Option<Refusal>,
}

/// An event of a script, as the bytes of its record.
#[derive(Clone, Debug, PartialEq, Eq)]
pub struct Scripted {
    /// The line in the script, from 1.
    pub at: usize,
    pub record: [u8; RECORD],
    pub expect: Option<Expect>,
}

/// What an event is expected to get.
#[derive(Clone, Copy, Debug, PartialEq, Eq)]
pub struct Expect {
    pub kind: Kind,
    /// The fields lost, kept, moment and store, if they were given.
    pub fields: Option<[u16; 4]>,
}

impl Expect {
    pub fn matches(&self, finding: &Finding) -> bool {
        let found = [finding.lost, finding.kept, finding.moment, finding.store];
        let same_fields = match self.fields {
            Some(fields) => fields == found,
            None => true,
        };
        self.kind == finding.kind && same_fields
    }
}

/// A line that the grammar does not allow.
#[derive(Clone, Debug, PartialEq, Eq)]
pub struct Mistake {
    /// The line in the script, from 1.
    pub at: usize,
    pub what: String,
}

impl Script {
    /// Reads a script. Only the grammar is checked.
    pub fn parse(text: &str) -> Result<Script, Mistake> {
        let mut reader = Reader::default();
        let mut at = 0;
        for line in text.lines() {
            at += 1;
            let words = words_of(line);
            if !words.is_empty() {
                reader
                    .take(at, &words)
                    .map_err(|what| Mistake { at, what })?;
            }
        }
        if !reader.has_lines {
            let what = "`lines N` is missing".to_string();
            return Err(Mistake {
                at: at.max(1),
                what,
            });
        }
        Ok(reader.script)
    }

    /// The trace that the script describes.
    pub fn trace(&self) -> Vec<u8> {
        let records: Vec<_> = self.events.iter().map(|event| event.record).collect();
        trace::assemble(self.lines, &self.free, &records)
    }

    /// The script as text, one line for each event, every site given.
    pub fn to_text(&self) -> String {
        let mut text = format!("lines {}\n", self.lines);
        let put = "a string takes text";
        for bytes in self.free.chunks(16) {
            writeln!(text, "free {}", hex(bytes)).expect(put);
        }
        for event in &self.events {
            writeln!(text, "{}", record_words(&event.record)).expect(put);
            if let Some(expect) = &event.expect {
                writeln!(text, "expect {}", expect_words(expect)).expect(put);
            }
        }
        if let Some(refusal) = self.refused {
            let (number, record) = (refusal.number, refusal.record);
            writeln!(text, "refused {number} at {record}").expect(put);
        }
        text
    }
}

/// The script of a trace with a good trailer; `None` for any other trace.
pub fn text_of(bytes: &[u8]) -> Option<String> {
    let body = trace::open(bytes).ok()?;
    let scripted = |record: &[u8; RECORD]| Scripted {
        at: 0,
        record: *record,
        expect: None,
    };
    let script = Script {
        lines: body.lines,
        free: body.free.to_vec(),
        events: body.record_bytes().map(scripted).collect(),
        refused: None,
    };
    Some(script.to_text())
}

/// The words of a line, without its comment.
fn words_of(line: &str) -> Vec<&str> {
    let before_comment = line.split('#').next().unwrap_or("");
    let words = before_comment.split([' ', '\t']);
    words.filter(|word| !word.is_empty()).collect()
}

#[derive(Default)]
struct Reader {
    script: Script,
    has_lines: bool,
    has_expect: bool,
}

impl Reader {
    fn take(&mut self, at: usize, words: &[&str]) -> Result<(), String> {
        let (word, rest) = (words[0], &words[1..]);
        if (word == "lines") == self.has_lines {
            return Err(match word {
                "lines" => "`lines` is given twice".to_string(),
                _ => "`lines N` comes first".to_string(),
            });
        }
        match word {
            "lines" => self.take_lines(rest),
            "free" => self.take_free(rest),
            "expect" => self.take_expect(rest),
            "refused" => self.take_refused(rest),
            _ => self.take_event(at, words),
        }
    }

    fn take_lines(&mut self, rest: &[&str]) -> Result<(), String> {
        let [lines] = rest else {
            return Err("`lines` takes one number".to_string());
        };
        self.script.lines = number(lines)?;
        self.has_lines = true;
        Ok(())
    }

    fn take_free(&mut self, rest: &[&str]) -> Result<(), String> {
        if !self.script.events.is_empty() {
            return Err("`free` comes before the first event".to_string());
        }
        if rest.is_empty() {
            return Err("`free` takes bytes".to_string());
        }
        for word in rest {
            self.script.free.push(hex_byte(word)?);
        }
        Ok(())
    }

    fn take_expect(&mut self, rest: &[&str]) -> Result<(), String> {
        if self.script.refused.is_some() {
            return Err("`expect` beside `refused`".to_string());
        }
        let Some((name, fields)) = rest.split_first() else {
            return Err("`expect` takes the name of a finding".to_string());
        };
        let kind = Kind::from_name(name).ok_or_else(|| format!("no finding is named `{name}`"))?;
        let fields = match fields {
            [] => None,
            [lost, kept, moment, store] => Some([
                number(lost)?,
                number(kept)?,
                number(moment)?,
                number(store)?,
            ]),
            _ => return Err("`expect` takes lost kept moment store, or none of them".to_string()),
        };
        let Some(event) = self.script.events.last_mut() else {
            return Err("`expect` without an event above it".to_string());
        };
        if event.expect.is_some() {
            return Err("the event above has its `expect` already".to_string());
        }
        event.expect = Some(Expect { kind, fields });
        self.has_expect = true;
        Ok(())
    }

    fn take_refused(&mut self, rest: &[&str]) -> Result<(), String> {
        if self.has_expect {
            return Err("`refused` beside `expect`".to_string());
        }
        if self.script.refused.is_some() {
            return Err("`refused` is given twice".to_string());
        }
        let [refusal, "at", record] = rest else {
            return Err("it is `refused N at R`".to_string());
        };
        let refusal = number(refusal)?;
        let known = u8::try_from(refusal).ok().filter(|n| OF_TRACES.contains(n));
        self.script.refused = Some(Refusal {
            number: known.ok_or_else(|| format!("no refusal has the number {refusal}"))?,
            record: usize::from(number(record)?),
        });
        Ok(())
    }

    fn take_event(&mut self, at: usize, words: &[&str]) -> Result<(), String> {
        let record = if words[0] == "record" {
            record_bytes(&words[1..])?
        } else {
            trace::encode(&event_at(at, words)?)
        };
        self.script.events.push(Scripted {
            at,
            record,
            expect: None,
        });
        Ok(())
    }
}

/// The event of a line's words, with its site.
pub(crate) fn event_at(at: usize, words: &[&str]) -> Result<Record, String> {
    let (words, site) = split_site(at, words)?;
    let event = event_of(words)?;
    Ok(Record { event, site })
}

/// Parts `site N` from the end of an event's words. The site is the line's number otherwise.
fn split_site<'a, 'b>(at: usize, words: &'a [&'b str]) -> Result<(&'a [&'b str], u16), String> {
    if let [event @ .., "site", site] = words {
        return Ok((event, number(site)?));
    }
    let site = u16::try_from(at).map_err(|_| "behind line 65535 a site is required".to_string())?;
    Ok((words, site))
}

fn event_of(words: &[&str]) -> Result<Event, String> {
    let event = match words {
        ["store", a] => Event::Store(range(a)?),
        ["write-back", a] => Event::WriteBack(range(a)?),
        ["fence"] => Event::Fence,
        ["begin"] => Event::Begin,
        ["log", a] => Event::Log(range(a)?),
        ["end"] => Event::End,
        ["persisted", a] => Event::Persisted(range(a)?),
        ["ordered", a, "before", b] => Event::Ordered(range(a)?, range(b)?),
        [] => return Err("an event is missing".to_string()),
        [word, ..] => return Err(form_of(word)),
    };
    Ok(event)
}

/// What is wrong with a line that starts with this word.
fn form_of(word: &str) -> String {
    match word {
        "store" | "write-back" | "log" | "persisted" => {
            format!("it is `{word} ADDRESS/LENGTH`, with `site N` or without")
        }
        "fence" | "begin" | "end" => format!("it is `{word}`, with `site N` or without"),
        "ordered" => {
            "it is `ordered ADDRESS/LENGTH before ADDRESS/LENGTH`, with `site N` or without"
                .to_string()
        }
        _ => format!("no line starts with `{word}`"),
    }
}

fn range(word: &str) -> Result<Range, String> {
    let (address, length) = word
        .split_once('/')
        .ok_or_else(|| format!("`{word}` is not ADDRESS/LENGTH"))?;
    Ok(Range::new(number(address)?, number(length)?))
}

/// A number of digits alone, of 16 bits.
pub fn number(word: &str) -> Result<u16, String> {
    let digits = !word.is_empty() && word.bytes().all(|byte| byte.is_ascii_digit());
    let value = if digits { word.parse().ok() } else { None };
    value.ok_or_else(|| format!("`{word}` is not a number from 0 to 65535"))
}

fn hex_byte(word: &str) -> Result<u8, String> {
    let digits = word.len() == 2 && word.bytes().all(|byte| byte.is_ascii_hexdigit());
    let value = u8::from_str_radix(word, 16).ok().filter(|_| digits);
    value.ok_or_else(|| format!("`{word}` is not a byte of two hexadecimal digits"))
}

pub(crate) fn record_bytes(words: &[&str]) -> Result<[u8; RECORD], String> {
    let bytes: Vec<u8> = words
        .iter()
        .map(|word| hex_byte(word))
        .collect::<Result<_, _>>()?;
    let count = bytes.len();
    let wrong = |_| format!("`record` takes {RECORD} bytes, not {count}");
    bytes.try_into().map_err(wrong)
}

/// The words for a record; its bytes if no event is written so.
fn record_words(bytes: &[u8; RECORD]) -> String {
    match event_words(bytes) {
        Some(words) => words,
        None => format!("record {}", hex(bytes)),
    }
}

fn event_words(bytes: &[u8; RECORD]) -> Option<String> {
    // Zero bytes and lacking fields that are set have no words.
    let record = trace::read(bytes).ok()?;
    Some(format!("{} site {}", record.event, record.site))
}

fn expect_words(expect: &Expect) -> String {
    let name = expect.kind.name();
    match expect.fields {
        Some([lost, kept, moment, store]) => format!("{name} {lost} {kept} {moment} {store}"),
        None => name.to_string(),
    }
}

fn hex(bytes: &[u8]) -> String {
    let words: Vec<String> = bytes.iter().map(|byte| format!("{byte:02x}")).collect();
    words.join(" ")
}
