//! How the time to judge a trace grows with its records and with the bytes that they name, the time
//! of an exposure with the records, and the time to lay findings out with the rows.

use crate::bench::{best_times, how_measured, longest, number, ratio, thousands, Call, CHECKERS};
use crate::mixes::{random_events, EVEN, PLAIN};
use crate::plain_pages::{self, length, MOST_FINDINGS};
use crate::workloads::MOST;
use crate::workloads::{durable_rounds, large_ordered, large_persisted, trace_of};
use crate::{exposure, pages, plain};
use reference::random::Random;
use reference::{Event, Finding, Kind, Range};

/// Traces of growing size.
struct Series {
    title: &'static str,
    size: &'static str,
    traces: Vec<(u16, Vec<u8>)>,
}

/// A table for each series, one of the exposures, and one of the pages.
pub fn command() -> String {
    let all = series();
    let traces = all.iter().flat_map(|series| &series.traces);
    let traces: Vec<&[u8]> = traces.map(|(_, trace)| &trace[..]).collect();
    let checkers = [CHECKERS[0].1, CHECKERS[1].1];
    let mut times = best_times(checkers, &traces, longest(&traces)).into_iter();
    let how = how_measured();
    let tables = all.iter().map(|series| table(series, &mut times));
    format!("µs a trace or a findings area, {how}; in brackets the ratio to the row before\n")
        + &tables.collect::<String>()
        + &exposures_table()
        + &pages_table()
}

/// The exposures that are timed. They have no area.
const EXPOSURES: [Call<[u32; 5]>; 2] = [
    |trace, _| {
        let mut answer = [0; 5];
        exposure::exposure(trace, &mut answer);
        answer
    },
    |trace, _| {
        let mut answer = [0; 5];
        plain::exposure(trace, &mut answer);
        answer
    },
];

/// Traces with records from 64 on, each time twice as many, up to the most.
fn exposed_traces() -> Vec<(usize, Vec<u8>)> {
    let twice = |&records: &usize| (records < MOST).then_some((2 * records).min(MOST));
    let trace = |records| trace_of(random_events(&mut Random::new(1), records, 16, PLAIN));
    std::iter::successors(Some(64), twice)
        .map(|records| (records, trace(records)))
        .collect()
}

fn exposures_table() -> String {
    let traces = exposed_traces();
    let inputs: Vec<&[u8]> = traces.iter().map(|(_, trace)| &trace[..]).collect();
    let times = best_times(EXPOSURES, &inputs, 0);
    let mut text =
        "\nExposure of a trace, all kinds of event but transactions, ranges of up to 16 bytes:\n\n"
            .to_string();
    text += "| Records | exposure (proved) | plain Rust | proved / plain |\n";
    text += "|--:|--:|--:|--:|\n";
    let mut before = None;
    for ((records, _), times) in traces.iter().zip(times) {
        text += &format!("{}\n", row(*records as f64, times, before));
        before = Some(times);
    }
    text
}

/// The layouts that are timed.
const LAYOUTS: [Call<[u32; 3]>; 2] = [
    |findings, area| {
        let mut answer = [0; 3];
        pages::lay_out(findings, area, &mut answer);
        answer
    },
    |findings, area| {
        let mut answer = [0; 3];
        plain_pages::lay_out(findings, area, &mut answer);
        answer
    },
];

/// Findings areas with rows from 64 on, each time twice as many, up to the most.
fn findings_areas() -> Vec<(usize, Vec<u8>)> {
    let twice = |&rows: &usize| (rows < MOST_FINDINGS).then_some((2 * rows).min(MOST_FINDINGS));
    std::iter::successors(Some(64), twice)
        .map(|rows| (rows, findings_of(rows)))
        .collect()
}

/// So many findings of the kinds 1 to 8 in turn, with numbers of every count of digits.
fn findings_of(rows: usize) -> Vec<u8> {
    let mut random = Random::new(1);
    let mut findings = Vec::new();
    for row in 0..rows {
        let mut any = || {
            let limit = random.pick(&[10, 100, 1_000, 10_000, 65_536]);
            random.below(limit) as u16
        };
        let finding = Finding {
            kind: Kind::ALL[1 + row % 8],
            lost: any(),
            kept: any(),
            moment: any(),
            store: any(),
            site: any(),
        };
        findings.extend(finding.to_bytes());
    }
    findings
}

fn pages_table() -> String {
    let areas = findings_areas();
    let inputs: Vec<&[u8]> = areas.iter().map(|(_, findings)| &findings[..]).collect();
    let times = best_times(LAYOUTS, &inputs, length(MOST_FINDINGS));
    let mut text = "\nPages of findings, each of them a row:\n\n".to_string();
    text += "| Rows | pages (proved) | plain Rust | proved / plain | proved, ns a row |\n";
    text += "|--:|--:|--:|--:|--:|\n";
    let mut before = None;
    for ((rows, _), times) in areas.iter().zip(times) {
        let rows = *rows as f64;
        text += &format!(
            "{} {} |\n",
            row(rows, times, before),
            number(times[0] / rows)
        );
        before = Some(times);
    }
    text
}

fn series() -> [Series; 5] {
    let block = block_of_85();
    [
        Series {
            title: "Records of one mix of all kinds, ranges of up to 16 bytes",
            size: "Records",
            traces: growing(85, 5_440, |records| {
                block.repeat(usize::from(records) / block.len())
            }),
        },
        Series {
            title: "100 persisted that hold",
            size: "Bytes of each",
            traces: growing(64, 4_096, |bytes| large_persisted(bytes, 100)),
        },
        Series {
            title: "100 stores",
            size: "Bytes of each",
            traces: growing(64, 4_096, |bytes| {
                vec![Event::Store(Range::new(0, bytes)); 100]
            }),
        },
        Series {
            title: "100 times a store, its write-back and a fence",
            size: "Bytes of each",
            traces: growing(64, 4_096, |bytes| durable_rounds(bytes, 100)),
        },
        Series {
            title: "One ordered that holds",
            size: "Bytes a side",
            traces: growing(64, 2_048, |bytes| large_ordered(bytes, 1)),
        },
    ]
}

/// Traces of the sizes from the first to the last, each twice the one before.
fn growing(first: u16, last: u16, events: impl Fn(u16) -> Vec<Event>) -> Vec<(u16, Vec<u8>)> {
    std::iter::successors(Some(first), |&size| (size < last).then_some(2 * size))
        .map(|size| (size, trace_of(events(size))))
        .collect()
}

/// A random mix that has 85 records with the ends of its transactions.
fn block_of_85() -> Vec<Event> {
    (0..)
        .map(|seed| random_events(&mut Random::new(seed), 84, 16, EVEN))
        .find(|events| events.len() == 85)
        .expect("a seed whose mix leaves one transaction to end")
}

fn table(series: &Series, times: &mut impl Iterator<Item = [f64; 2]>) -> String {
    let [judge, plain, _] = CHECKERS.map(|(name, _)| name);
    let mut text = format!("\n{}:\n\n", series.title);
    text += &format!("| {} | {judge} | {plain} | judge / plain |\n", series.size);
    text += "|--:|--:|--:|--:|\n";
    let mut before = None;
    for ((size, _), times) in series.traces.iter().zip(times) {
        text += &format!("{}\n", row(f64::from(*size), times, before));
        before = Some(times);
    }
    text
}

fn row(size: f64, times: [f64; 2], before: Option<[f64; 2]>) -> String {
    let cell = |at: usize| {
        let time = number(times[at] / 1_000.0);
        match before {
            Some(before) => format!("{time} ({})", ratio(times[at] / before[at])),
            None => time,
        }
    };
    format!(
        "| {} | {} | {} | {} |",
        thousands(size),
        cell(0),
        cell(1),
        ratio(times[0] / times[1])
    )
}

#[cfg(test)]
mod tests {
    use super::{exposed_traces, findings_areas, series, EXPOSURES, LAYOUTS};
    use crate::plain_pages::length;
    use crate::workloads::tests::hash;
    use reference::{pages, Kind};

    /// Times of this version are compared with those of others. The first series and the traces of the exposures changed
    /// once, for 18.
    #[test]
    fn the_traces_are_those_of_every_version() {
        let of_series = |traces: &[(u16, Vec<u8>)]| {
            let traces = traces.iter().flat_map(|(_, trace)| trace);
            hash(&traces.copied().collect::<Vec<u8>>())
        };
        let hashes = series().map(|series| of_series(&series.traces));
        let exposed = exposed_traces().into_iter().flat_map(|(_, trace)| trace);
        let exposed = hash(&exposed.collect::<Vec<u8>>());
        let expected = [
            0xebb4_a608_f142_2790,
            0xf198_b91c_c53d_3edb,
            0x312a_9eec_b521_7218,
            0x60c5_7d36_6331_39c8,
            0xcbf5_2d50_510c_7088,
        ];
        assert_eq!(hashes, expected, "{hashes:#x?}");
        assert_eq!(exposed, 0xb793_6a80_93f3_5b60, "{exposed:#x}");
    }

    #[test]
    fn every_trace_is_accepted_and_no_named_assertion_is_broken() {
        for (at, series) in series().iter().enumerate() {
            for (size, trace) in &series.traces {
                let outcome = reference::judge(trace, trace.len());
                let report = outcome.report().expect("an accepted trace");
                let broken = |kind| matches!(kind, Kind::Lost | Kind::OutOfOrder);
                let any = report.findings.iter().any(|finding| broken(finding.kind));
                assert!(at == 0 || !any, "{} {size}", series.title);
                assert!(at > 0 || report.totals.events == usize::from(*size));
            }
        }
    }

    #[test]
    fn every_trace_has_an_exposure_and_the_two_agree() {
        let traces = exposed_traces();
        assert_eq!(traces.first().map(|(records, _)| *records), Some(64));
        assert_eq!(traces.last().map(|(records, _)| *records), Some(5_460));
        for (records, trace) in traces {
            let outcome = reference::judge(&trace, trace.len());
            let report = outcome.report().expect("an accepted trace");
            assert_eq!((report.lines, report.totals.events), (64, records));
            let mean = reference::exposure(&trace).expect("bytes are closed");
            let numbers = [0, 0, mean.quotient, mean.remainder, mean.divisor];
            for call in EXPOSURES {
                let answer = call(&trace, &mut []).map(|number| number as usize);
                assert_eq!(answer, numbers, "{records} records");
            }
        }
    }

    #[test]
    fn every_finding_is_a_row_and_the_layouts_agree() {
        let areas = findings_areas();
        assert_eq!(areas.first().map(|(rows, _)| *rows), Some(64));
        assert_eq!(areas.last().map(|(rows, _)| *rows), Some(65_535));
        for (rows, findings) in areas {
            let expected = pages::lay_out(&findings, length(rows)).expect("laid out");
            assert_eq!(expected.len(), length(rows));
            for call in LAYOUTS {
                let mut area = vec![0; length(rows)];
                assert_eq!(call(&findings, &mut area), [0, 0, length(rows) as u32]);
                assert!(area == expected, "{rows} rows");
            }
        }
    }
}
