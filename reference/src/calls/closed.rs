//! The files that the calls of a case close, judged and read back.

use super::writing::Writing;
use super::{Answer, Call, Case};
use crate::trace::{self, RECORD};
use crate::{images, judge, judge_by_images};

/// How many closed files were judged, and how many of them by images too.
#[derive(Clone, Copy, Debug, Default, PartialEq, Eq)]
pub struct Closed {
    pub files: usize,
    pub by_images: usize,
}

/// What a start and the events behind it were accepted with.
struct Accepted {
    lines: u16,
    preamble: Vec<u8>,
    records: Vec<[u8; RECORD]>,
}

/// Checks the file of every accepted closing: it must be accepted by the judge, and have the
/// preamble and the records that were accepted. A writer that no start handed over, or whose area
/// was replaced, promises no such file, and is passed over.
pub(super) fn check(case: &Case) -> Result<Closed, String> {
    let mut writing = Writing::new();
    let mut accepted: Option<Accepted> = None;
    let mut closed = Closed::default();
    for (at, &call) in case.calls.iter().enumerate() {
        let taken = match writing.answer(call) {
            Some(Answer::Writer(taken, _)) => taken.ok(),
            _ => None,
        };
        match (call, taken, &mut accepted) {
            (Call::Area(_) | Call::Writer(_), ..) => accepted = None,
            (Call::Start(lines), Some(_), _) => {
                accepted = Some(Accepted {
                    lines,
                    preamble: writing.preamble.clone(),
                    records: Vec::new(),
                });
            }
            (Call::Write(record), Some(_), Some(accepted)) => accepted.records.push(record),
            (Call::Finish, Some(Some(length)), Some(accepted)) => {
                let checked = accepted.check(&writing.area[..length]);
                let by_images =
                    checked.map_err(|what| format!("{}: call {at}: {what}", case.group))?;
                closed.files += 1;
                closed.by_images += usize::from(by_images);
            }
            _ => {}
        }
    }
    Ok(closed)
}

impl Accepted {
    /// Checks the file, and tells whether it was judged by images too.
    fn check(&self, file: &[u8]) -> Result<bool, String> {
        let body = trace::open(file).map_err(|number| format!("the trailer gets {number}"))?;
        let records = body.record_bytes();
        if (body.lines, body.free) != (self.lines, &self.preamble[..])
            || !records.eq(self.records.iter())
        {
            return Err("the file reads back as another".to_string());
        }
        let area_len = RECORD * self.records.len();
        let outcome = judge(file, area_len);
        if let Some(refusal) = outcome.refusal() {
            return Err(format!("the file is refused by {}", refusal.number));
        }
        let by_images = images::small_enough(file);
        if by_images && judge_by_images(file, area_len) != outcome {
            return Err("the two ways differ on the file".to_string());
        }
        Ok(by_images)
    }
}
