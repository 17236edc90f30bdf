//! The line of a call and its answer in numbers, as the program that makes the calls prints it: the
//! numbers of the record given, and the values of the answer in the papers' order.

use super::{Answer, Call};
use crate::finding::Finding;
use crate::interval::{Epochs, Interval};
use crate::trace::{self, RECORD};

/// The line, without its end.
pub(super) fn line(call: Call, answer: &Answer) -> String {
    format!("{}:{}", call_words(call), answer_words(answer))
}

fn call_words(call: Call) -> String {
    match call {
        Call::Give(record) => format!("give{}", listed(&fields(&trace::encode(&record)))),
        Call::Write(record) => format!("write{}", listed(&fields(&record))),
        call => call.to_string(),
    }
}

/// The numbers in the bytes of a record: its kind, the zero byte, both ranges and the site.
fn fields(record: &[u8; RECORD]) -> Vec<usize> {
    let wide = record[2..].chunks(2);
    let wide = wide.map(|two| usize::from(u16::from_le_bytes([two[0], two[1]])));
    let narrow = record[..2].iter().map(|&byte| usize::from(byte));
    narrow.chain(wide).collect()
}

fn answer_words(answer: &Answer) -> String {
    match answer {
        Answer::Taken => String::new(),
        Answer::Finding(finding) => listed(&finding_numbers(finding)),
        Answer::Interval(interval) => listed(&interval_numbers(interval)),
        Answer::Totals(totals) => listed(&[totals.events, totals.fences, totals.found]),
        Answer::Exposure(mean) => listed(&[mean.quotient, mean.remainder, mean.divisor]),
        Answer::Refused(number) => refused(*number),
        Answer::Writer(result, change) => {
            let words = match result {
                Ok(length) => listed(&length.iter().copied().collect::<Vec<usize>>()),
                Err(number) => refused(*number),
            };
            let change = change.as_ref().map(|change| format!(" {change}"));
            words + &change.unwrap_or_default()
        }
    }
}

fn refused(number: u8) -> String {
    format!(" refused {number} at 0")
}

fn finding_numbers(finding: &Finding) -> Vec<usize> {
    let fields = [finding.lost, finding.kept, finding.moment, finding.store];
    let kind = usize::from(finding.kind.number());
    [kind].into_iter().chain(fields.map(usize::from)).collect()
}

fn interval_numbers(interval: &Interval) -> Vec<usize> {
    let [store, write_back, fence] = interval.events();
    match interval.epochs() {
        Epochs::None => vec![],
        Epochs::Open(since) => vec![since, store, write_back],
        Epochs::Closed(from, to) => vec![from, to, store, write_back, fence],
    }
}

/// The numbers, a blank before each.
fn listed(numbers: &[usize]) -> String {
    numbers.iter().map(|number| format!(" {number}")).collect()
}
