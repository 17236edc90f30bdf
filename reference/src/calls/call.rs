//! A call on a run or of the writer: its twelve bytes and its words.

use crate::event::{Range, Record};
use crate::script;
use crate::trace::{self, raw_record, RECORD};
use crate::writer::Writer;
use std::fmt;

#[derive(Clone, Copy, Debug, PartialEq, Eq, Hash)]
pub enum Call {
    /// The event is given to the run.
    Give(Record),
    /// A fresh window of so many lines takes the run's place.
    Fresh(u16),
    /// The persist interval of a byte is asked for.
    Ask(u16),
    /// The run is closed; it may go on.
    Close,
    /// So many fences are given, and nothing is printed.
    Fences(u16),
    /// The mean exposure of the run is asked for.
    Exposure,
    /// A fresh area of so many bytes takes the area's place.
    Area(u32),
    /// The preamble of the starts that follow: so many bytes, from a first one on by 7 upwards.
    Preamble(u32, u8),
    /// The preamble of the starts that follow: the first so many bytes of the area, as they are.
    PreambleOfArea(u32),
    /// A file of so many lines is started.
    Start(u16),
    /// The file is closed; the writer may go on.
    Finish,
    /// A writer of any numbers takes the writer's place; at most 255 transactions are open.
    Writer(Writer),
    /// The bytes of a record, of a kind below 64, are given to the writer.
    Write([u8; RECORD]),
}

impl Call {
    const FRESH: u8 = 16;
    const ASK: u8 = 17;
    const CLOSE: u8 = 18;
    const FENCES: u8 = 19;
    const EXPOSURE: u8 = 20;
    const AREA: u8 = 32;
    const PREAMBLE: u8 = 33;
    const PREAMBLE_OF_AREA: u8 = 34;
    const START: u8 = 35;
    const FINISH: u8 = 36;
    const WRITER: u8 = 37;
    /// The kind of a record given to the writer is added to it.
    const WRITE: u8 = 64;
    /// The kinds of records that can be given to the writer.
    const KINDS: u8 = 64;
    /// The most bytes of an area or a preamble.
    pub const MOST_BYTES: u32 = 65_600;

    /// The bytes of the call. The calls on a run are laid out as a record.
    pub fn to_bytes(self) -> [u8; RECORD] {
        match self {
            Call::Give(record) => trace::encode(&record),
            Call::Fresh(lines) => bytes_with(Call::FRESH, lines),
            Call::Ask(byte) => bytes_with(Call::ASK, byte),
            Call::Close => bytes_with(Call::CLOSE, 0),
            Call::Fences(count) => bytes_with(Call::FENCES, count),
            Call::Exposure => bytes_with(Call::EXPOSURE, 0),
            Call::Area(length) => bytes_of_length(Call::AREA, length, 0),
            Call::Preamble(length, from) => bytes_of_length(Call::PREAMBLE, length, from),
            Call::PreambleOfArea(length) => bytes_of_length(Call::PREAMBLE_OF_AREA, length, 0),
            Call::Start(lines) => bytes_with(Call::START, lines),
            Call::Finish => bytes_with(Call::FINISH, 0),
            Call::Writer(writer) => bytes_of_writer(&writer),
            Call::Write(mut record) => {
                assert!(record[0] < Call::KINDS, "no call has kind {}", record[0]);
                record[0] += Call::WRITE;
                record
            }
        }
    }

    /// The call of these bytes; `None` for another kind, if a lacking field is set, or if an area
    /// or a preamble is too long.
    pub fn from_bytes(bytes: &[u8; RECORD]) -> Option<Call> {
        if let Ok(record) = trace::read(bytes) {
            return Some(Call::Give(record));
        }
        let number = u16::from_le_bytes([bytes[2], bytes[3]]);
        let length = u32_at(bytes, 2);
        let call = match bytes[0] {
            Call::FRESH => Call::Fresh(number),
            Call::ASK => Call::Ask(number),
            Call::CLOSE => Call::Close,
            Call::FENCES => Call::Fences(number),
            Call::EXPOSURE => Call::Exposure,
            Call::AREA..=Call::PREAMBLE_OF_AREA if length > Call::MOST_BYTES => return None,
            Call::AREA => Call::Area(length),
            Call::PREAMBLE => Call::Preamble(length, bytes[6]),
            Call::PREAMBLE_OF_AREA => Call::PreambleOfArea(length),
            Call::START => Call::Start(number),
            Call::FINISH => Call::Finish,
            Call::WRITER => Call::Writer(writer_of(bytes)),
            kind if (Call::WRITE..Call::WRITE + Call::KINDS).contains(&kind) => {
                let mut record = *bytes;
                record[0] -= Call::WRITE;
                Call::Write(record)
            }
            _ => return None,
        };
        (call.to_bytes() == *bytes).then_some(call)
    }

    /// The call of these words: those that are printed for it, or `fences N`, and as the README
    /// has them for those without an answer. An event may have `site N` behind it; the site is
    /// `at` otherwise. A record that cannot be read has its bytes behind `write record`.
    pub fn parse(at: usize, words: &str) -> Result<Call, String> {
        let words: Vec<&str> = words.split_whitespace().collect();
        let call = match words[..] {
            ["fresh", lines] => Call::Fresh(script::number(lines)?),
            ["ask", byte] => Call::Ask(script::number(byte)?),
            ["close"] => Call::Close,
            ["fences", count] => Call::Fences(script::number(count)?),
            ["exposure"] => Call::Exposure,
            ["area", length] => Call::Area(wide(length)?),
            ["preamble", "of", "area", length] => Call::PreambleOfArea(wide(length)?),
            ["preamble", length, "from", byte] => Call::Preamble(wide(length)?, narrow(byte)?),
            ["start", lines] => Call::Start(script::number(lines)?),
            ["finish"] => Call::Finish,
            ["writer", lines, offset, count, open] => Call::Writer(Writer {
                lines: script::number(lines)?,
                offset: wide(offset)?,
                count: wide(count)?,
                open: u16::from(narrow(open)?),
            }),
            ["write", "record", ref bytes @ ..] => Call::Write(script::record_bytes(bytes)?),
            ["write", ref event @ ..] => Call::Write(trace::encode(&script::event_at(at, event)?)),
            _ => Call::Give(script::event_at(at, &words)?),
        };
        Ok(call)
    }

    /// Whether it is a call of the writer, and not one on a run.
    pub fn is_of_writer(self) -> bool {
        self.to_bytes()[0] >= Call::AREA
    }
}

/// A call with nothing but a number, in the place of an address.
fn bytes_with(kind: u8, number: u16) -> [u8; RECORD] {
    raw_record(kind, 0, Range::new(number, 0), Range::new(0, 0), 0)
}

/// A call with a length of 32 bits and a byte behind it.
fn bytes_of_length(kind: u8, length: u32, byte: u8) -> [u8; RECORD] {
    let mut bytes = bytes_with(kind, 0);
    bytes[2..6].copy_from_slice(&length.to_le_bytes());
    bytes[6] = byte;
    bytes
}

fn bytes_of_writer(writer: &Writer) -> [u8; RECORD] {
    let mut bytes = bytes_with(Call::WRITER, writer.lines);
    bytes[1] = u8::try_from(writer.open).expect("at most 255 transactions are open");
    bytes[4..8].copy_from_slice(&writer.offset.to_le_bytes());
    bytes[8..].copy_from_slice(&writer.count.to_le_bytes());
    bytes
}

fn writer_of(bytes: &[u8; RECORD]) -> Writer {
    Writer {
        lines: u16::from_le_bytes([bytes[2], bytes[3]]),
        offset: u32_at(bytes, 4),
        count: u32_at(bytes, 8),
        open: u16::from(bytes[1]),
    }
}

fn u32_at(bytes: &[u8; RECORD], at: usize) -> u32 {
    u32::from_le_bytes([bytes[at], bytes[at + 1], bytes[at + 2], bytes[at + 3]])
}

/// A number of 32 bits.
fn wide(word: &str) -> Result<u32, String> {
    word.parse()
        .map_err(|_| format!("`{word}` is not a number of 32 bits"))
}

/// A number of 8 bits.
fn narrow(word: &str) -> Result<u8, String> {
    word.parse()
        .map_err(|_| format!("`{word}` is not a number of 8 bits"))
}

impl fmt::Display for Call {
    fn fmt(&self, f: &mut fmt::Formatter<'_>) -> fmt::Result {
        match self {
            Call::Give(record) => write!(f, "{}", record.event),
            Call::Fresh(lines) => write!(f, "fresh {lines}"),
            Call::Ask(byte) => write!(f, "ask {byte}"),
            Call::Close => write!(f, "close"),
            Call::Fences(count) => write!(f, "fences {count}"),
            Call::Exposure => write!(f, "exposure"),
            Call::Area(length) => write!(f, "area {length}"),
            Call::Preamble(length, from) => write!(f, "preamble {length} from {from}"),
            Call::PreambleOfArea(length) => write!(f, "preamble of area {length}"),
            Call::Start(lines) => write!(f, "start {lines}"),
            Call::Finish => write!(f, "finish"),
            Call::Writer(writer) => {
                let (lines, offset) = (writer.lines, writer.offset);
                let (count, open) = (writer.count, writer.open);
                write!(f, "writer {lines} {offset} {count} {open}")
            }
            Call::Write(record) => match trace::read(record) {
                Ok(record) => write!(f, "write {}", record.event),
                Err(_) => write!(f, "write record"),
            },
        }
    }
}
