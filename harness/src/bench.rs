//! Times the judge beside the plain implementation and the checker by ranges.

use crate::judge::{self, Answer};
use crate::plain::{self, RECORD};
use crate::progress::Progress;
use crate::ranges;
use crate::workloads::{self, Workload};
use std::hint::black_box;
use std::time::{Duration, Instant};

/// Samples of each checker and trace, of which the best counts.
pub const SAMPLES: u64 = 100;
/// A sample repeats the call for at least this long.
pub const SAMPLE: Duration = Duration::from_millis(5);

/// A call that is timed: from an input into an area.
pub type Call<A> = fn(&[u8], &mut [u8]) -> A;

/// A checker: judges a trace into a findings area.
pub type Checker = Call<Answer>;

/// The checkers in the order of the table.
pub const CHECKERS: [(&str, Checker); 3] = [
    ("judge (proved)", judge::judge),
    ("plain Rust", plain::judge),
    ("ranges (as PMTest)", ranges::judge),
];

/// What was measured with one workload.
pub struct Row {
    pub name: &'static str,
    pub note: &'static str,
    pub records: usize,
    /// Of each checker.
    pub ns_an_event: [f64; 3],
    /// Findings in which the checker by ranges differs from the judge.
    pub ranges_differ: usize,
}

/// The times of every workload, or how plain differs from the judge.
pub fn measured() -> Result<Vec<Row>, String> {
    let workloads = workloads::all();
    let mut rows = workloads
        .iter()
        .map(compared)
        .collect::<Result<Vec<Row>, String>>()?;
    let traces: Vec<&[u8]> = workloads
        .iter()
        .map(|workload| &workload.trace[..])
        .collect();
    let checkers = CHECKERS.map(|(_, checker)| checker);
    let times = best_times(checkers, &traces, longest(&traces));
    for (row, best) in rows.iter_mut().zip(times) {
        row.ns_an_event = best.map(|ns| ns / row.records as f64);
    }
    Ok(rows)
}

/// A row without its times, or how plain differs from the judge.
fn compared(workload: &Workload) -> Result<Row, String> {
    let trace = &workload.trace;
    let [expected, plain, ranges] = CHECKERS.map(|(_, checker)| {
        let mut area = vec![0xa5; trace.len()];
        (checker(trace, &mut area), area)
    });
    if plain != expected {
        let name = workload.name;
        return Err(format!("{name}: the plain implementation differs\n"));
    }
    let Answer::Accepted { events, .. } = expected.0 else {
        panic!("{} is refused: {:?}", workload.name, expected.0);
    };
    let findings = ranges.1.chunks(RECORD).zip(expected.1.chunks(RECORD));
    Ok(Row {
        name: workload.name,
        note: workload.note,
        records: events as usize,
        ns_an_event: [0.0; 3],
        ranges_differ: findings
            .filter(|(found, expected)| found != expected)
            .count(),
    })
}

/// The length of the longest trace, enough for the findings area of each.
pub fn longest(traces: &[&[u8]]) -> usize {
    let lengths = traces.iter().map(|trace| trace.len());
    lengths.max().unwrap_or(0)
}

/// The best time of each call on each input, in ns, with an area of so many bytes. The samples of all
/// of them take turns, so that other work on the machine meets all alike.
pub fn best_times<const N: usize, A>(
    calls: [Call<A>; N],
    inputs: &[&[u8]],
    area_len: usize,
) -> Vec<[f64; N]> {
    let mut area = vec![0; area_len];
    let mut best = vec![[f64::INFINITY; N]; inputs.len()];
    let mut progress = Progress::new("rounds", SAMPLES);
    for round in 1..=SAMPLES {
        for (best, input) in best.iter_mut().zip(inputs) {
            for (best, call) in best.iter_mut().zip(calls) {
                *best = best.min(sample_time(call, input, &mut area));
            }
        }
        progress.done(round);
    }
    best
}

/// Time of one call, in ns, from as many calls as a sample takes.
fn sample_time<A>(call: Call<A>, input: &[u8], area: &mut [u8]) -> f64 {
    let start = Instant::now();
    let mut calls = 0.0;
    loop {
        black_box(call(black_box(input), black_box(area)));
        calls += 1.0;
        let passed = start.elapsed();
        if passed >= SAMPLE {
            return passed.as_nanos() as f64 / calls;
        }
    }
}

/// The table in Markdown, and below it what each workload is.
pub fn table(rows: &[Row]) -> String {
    let mut text = format!("ns an event, {}\n\n", how_measured());
    text += &format!(
        "| Workload | Records |{} judge / plain | ranges / judge | ranges differs |\n",
        CHECKERS.map(|(name, _)| format!(" {name} |")).concat()
    );
    text += "|---|--:|--:|--:|--:|--:|--:|--:|\n";
    for row in rows {
        let [judge, plain, ranges] = row.ns_an_event;
        text += &format!(
            "| {} | {} | {} | {} | {} | {} | {} | {} |\n",
            row.name,
            thousands(row.records as f64),
            number(judge),
            number(plain),
            number(ranges),
            ratio(judge / plain),
            ratio(ranges / judge),
            thousands(row.ranges_differ as f64),
        );
    }
    text += "\n";
    for row in rows {
        text += &format!("- {}: {}\n", row.name, row.note);
    }
    text + "- ranges differs: the number of its findings that are not the judge's\n"
}

/// What a time is the best of.
pub fn how_measured() -> String {
    let ms = SAMPLE.as_millis();
    format!("best of {SAMPLES} samples of at least {ms} ms each, taken in turns")
}

/// A ratio with two digits behind the point, or more if it is small.
pub fn ratio(value: f64) -> String {
    let zeros = -value.log10().floor();
    format!("{value:.digits$}", digits = zeros.max(1.0) as usize + 1)
}

/// A measured number with three digits or more.
pub fn number(value: f64) -> String {
    match value {
        value if value < 10.0 => format!("{value:.2}"),
        value if value < 100.0 => format!("{value:.1}"),
        value => thousands(value),
    }
}

/// A whole number with commas between thousands.
pub fn thousands(value: f64) -> String {
    let digits = format!("{value:.0}");
    let mut text = String::new();
    for (at, digit) in digits.chars().enumerate() {
        if at > 0 && (digits.len() - at) % 3 == 0 {
            text.push(',');
        }
        text.push(digit);
    }
    text
}

#[cfg(test)]
mod tests {
    use super::{number, ratio, thousands};

    #[test]
    fn numbers_have_commas() {
        let values = [0.0, 999.4, 1_000.0, 65_536.0, 1_234_567.0];
        let texts = values.map(thousands);
        assert_eq!(texts, ["0", "999", "1,000", "65,536", "1,234,567"]);
        assert_eq!(
            [4.567, 45.67, 4_567.8].map(number),
            ["4.57", "45.7", "4,568"]
        );
    }

    #[test]
    fn small_ratios_have_two_digits() {
        assert_eq!(
            [12.345, 1.0, 0.5, 0.00012].map(ratio),
            ["12.35", "1.00", "0.50", "0.00012"]
        );
    }
}
