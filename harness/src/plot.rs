//! The plot of a benchmark as SVG: three bars for each workload on a logarithmic scale.

use crate::bench::{number, thousands, Row, CHECKERS, SAMPLES};
use std::fmt::Write;

const WIDTH: f64 = 800.0;
/// The places of the scale's ends; names stand to the left, a bar's number may stand to the right.
const LEFT: f64 = 190.0;
const RIGHT: f64 = 720.0;
const TOP: f64 = 84.0;
const BAR: f64 = 15.0;
/// From one workload to the next.
const STEP: f64 = 3.0 * BAR + 17.0;
const BLUE: &str = "#0072b2";
const ORANGE: &str = "#e69f00";
const GREY: &str = "#767676";
/// Colours of the checkers, told apart by colour-blind readers and by brightness.
const COLOURS: [&str; 3] = [BLUE, ORANGE, GREY];

/// The powers of ten that the scale goes from and to.
struct Scale {
    low: i32,
    high: i32,
}

impl Scale {
    fn of(rows: &[Row]) -> Scale {
        let values = || rows.iter().flat_map(|row| row.ns_an_event);
        let least = values().fold(f64::INFINITY, f64::min);
        let most = values().fold(0.0, f64::max);
        Scale {
            low: least.log10().floor() as i32,
            high: most.log10().ceil() as i32,
        }
    }

    fn place(&self, value: f64) -> f64 {
        let part = (value.log10() - f64::from(self.low)) / f64::from(self.high - self.low);
        LEFT + part * (RIGHT - LEFT)
    }
}

/// The plot of these rows.
pub fn svg(rows: &[Row]) -> String {
    let scale = Scale::of(rows);
    let bottom = TOP + STEP * rows.len() as f64;
    let mut text = String::new();
    head(&mut text, bottom + 52.0);
    legend(&mut text);
    decades(&mut text, &scale, bottom);
    for (at, row) in rows.iter().enumerate() {
        bars(&mut text, &scale, row, TOP + 8.0 + STEP * at as f64);
    }
    text.push_str("</svg>\n");
    text
}

fn line(text: &mut String, line: std::fmt::Arguments) {
    writeln!(text, "{line}").expect("a string takes text");
}

fn head(text: &mut String, height: f64) {
    line(
        text,
        format_args!(
            r#"<svg xmlns="http://www.w3.org/2000/svg" width="{WIDTH}" height="{height}" viewBox="0 0 {WIDTH} {height}" font-family="Helvetica, Arial, sans-serif" font-size="13" fill="black">"#
        ),
    );
    line(
        text,
        format_args!(r#"<rect width="{WIDTH}" height="{height}" fill="white"/>"#),
    );
    let middle = WIDTH / 2.0;
    line(
        text,
        format_args!(
            r#"<text x="{middle}" y="28" font-size="17" font-weight="bold" text-anchor="middle">Time to judge an event</text>"#
        ),
    );
}

fn legend(text: &mut String) {
    for (at, ((name, _), colour)) in CHECKERS.iter().zip(COLOURS).enumerate() {
        let x = LEFT + 170.0 * at as f64;
        let name_x = x + 20.0;
        line(
            text,
            format_args!(
                r#"<rect x="{x}" y="46" width="14" height="14" fill="{colour}"/><text x="{name_x}" y="58">{name}</text>"#
            ),
        );
    }
}

/// A line and a number for each power of ten, and the label of the axis.
fn decades(text: &mut String, scale: &Scale, bottom: f64) {
    for power in scale.low..=scale.high {
        let value = 10f64.powi(power);
        let x = scale.place(value);
        let label = if power < 0 {
            value.to_string()
        } else {
            thousands(value)
        };
        let y = bottom + 18.0;
        line(
            text,
            format_args!(
                r##"<line x1="{x:.1}" y1="{TOP}" x2="{x:.1}" y2="{bottom}" stroke="#cccccc"/><text x="{x:.1}" y="{y}" font-size="12" text-anchor="middle">{label}</text>"##
            ),
        );
    }
    let (x, y) = ((LEFT + RIGHT) / 2.0, bottom + 40.0);
    line(
        text,
        format_args!(
            r#"<text x="{x}" y="{y}" text-anchor="middle">ns an event, best of {SAMPLES} samples (logarithmic scale)</text>"#
        ),
    );
}

fn bars(text: &mut String, scale: &Scale, row: &Row, top: f64) {
    let (x, y) = (LEFT - 10.0, top + 1.5 * BAR + 4.5);
    let name = row.name;
    line(
        text,
        format_args!(r#"<text x="{x}" y="{y}" text-anchor="end">{name}</text>"#),
    );
    for (at, (&value, colour)) in row.ns_an_event.iter().zip(COLOURS).enumerate() {
        let y = top + BAR * at as f64;
        let width = scale.place(value) - LEFT;
        let height = BAR - 2.0;
        let (label_x, label_y) = (LEFT + width + 5.0, y + 11.0);
        let label = number(value);
        line(
            text,
            format_args!(
                r##"<rect x="{LEFT}" y="{y}" width="{width:.1}" height="{height}" fill="{colour}"/><text x="{label_x:.1}" y="{label_y}" font-size="12" stroke="white" stroke-width="3" paint-order="stroke">{label}</text>"##
            ),
        );
    }
}

#[cfg(test)]
mod tests {
    use super::svg;
    use crate::bench::Row;

    #[test]
    fn every_row_has_its_name_and_bars() {
        let row = |name, ns_an_event| Row {
            name,
            note: "",
            records: 1,
            ns_an_event,
            ranges_differ: 0,
        };
        let rows = [row("one", [1.5, 20.0, 300.0]), row("two", [0.5, 0.7, 1e6])];
        let text = svg(&rows);
        assert!(text.starts_with("<svg ") && text.ends_with("</svg>\n"));
        assert_eq!(text.matches("<rect ").count(), 1 + 3 + 3 * rows.len());
        for shown in [">one<", ">two<", ">0.1<", ">1,000,000<", ">1.50<", ">0.70<"] {
            assert!(text.contains(shown), "{shown}");
        }
    }
}
