//! Growth curves as an SVG: two panels side by side, both axes logarithmic, one legend.

use std::fmt::Write;

/// One curve.
pub struct Series {
    /// Its name in the legend.
    pub name: &'static str,
    /// Its points, from left to right; all numbers are above 0.
    pub points: Vec<(f64, f64)>,
}

/// One diagram.
pub struct Panel {
    /// What its numbers are.
    pub title: &'static str,
    /// Its curves; those of all panels are in the same order.
    pub series: Vec<Series>,
}

const WIDTH: f64 = 400.0;
const HEIGHT: f64 = 300.0;
const LEFT: f64 = 60.0;
const TOP: f64 = 40.0;
const GAP: f64 = 80.0;
const LEGEND_LINE: f64 = 20.0;
const COLOURS: [&str; 8] = [
    "#000000", "#0072b2", "#009e73", "#56b4e9", "#d55e00", "#cc79a7", "#e69f00", "#7f7f7f",
];
const DASHES: [&str; 8] = ["", "6 3", "2 3", "8 3 2 3", "", "6 3", "2 3", "8 3 2 3"];

/// A logarithmic axis from `low` to `high` over `length` pixels.
struct Axis {
    low: f64,
    high: f64,
    length: f64,
}

impl Axis {
    fn position(&self, value: f64) -> f64 {
        let part = (value / self.low).ln() / (self.high / self.low).ln();
        part * self.length
    }

    /// The numbers on the axis that are one of the steps times a power of ten.
    fn ticks(&self, steps: &[f64]) -> Vec<f64> {
        let powers = (-3..9).map(|power| 10_f64.powi(power));
        let ticks = powers.flat_map(|power| steps.iter().map(move |step| step * power));
        let inside = |tick: &f64| *tick >= self.low * 0.999 && *tick <= self.high * 1.001;
        ticks.filter(inside).collect()
    }
}

/// The least axis that begins and ends at a power of ten and holds the values.
fn axis(values: impl Iterator<Item = f64> + Clone, length: f64) -> Axis {
    let least = values.clone().fold(f64::INFINITY, f64::min);
    let most = values.fold(0.0, f64::max);
    let whole = Axis {
        low: 1e-3,
        high: 1e9,
        length,
    };
    let marks = whole.ticks(&[1.0]);
    let low = marks.iter().rev().find(|mark| **mark <= least);
    let high = marks.iter().find(|mark| **mark >= most && **mark > least);
    Axis {
        low: low.copied().unwrap_or(1e-3),
        high: high.copied().unwrap_or(1e9),
        length,
    }
}

/// The panels as one SVG.
pub fn svg(panels: &[Panel]) -> String {
    let legend = panels.first().map_or(0, |panel| panel.series.len());
    let width = panels.len() as f64 * (WIDTH + GAP) + LEFT - GAP + 40.0;
    let height = TOP + HEIGHT + 60.0 + LEGEND_LINE * ((legend + 1) / 2) as f64;
    let mut out = format!(
        "<svg xmlns=\"http://www.w3.org/2000/svg\" viewBox=\"0 0 {width} {height}\" width=\"{width}\" height=\"{height}\" \
         font-family=\"sans-serif\" font-size=\"12\">\n<rect width=\"100%\" height=\"100%\" fill=\"white\"/>\n"
    );
    for (number, panel) in panels.iter().enumerate() {
        let left = LEFT + number as f64 * (WIDTH + GAP);
        put(
            &mut out,
            format_args!("<g transform=\"translate({left} {TOP})\">"),
        );
        put_panel(&mut out, panel);
        put(&mut out, format_args!("</g>"));
    }
    if let Some(panel) = panels.first() {
        put_legend(&mut out, panel);
    }
    out + "</svg>\n"
}

/// Writing to a string can't fail.
fn put(out: &mut String, line: std::fmt::Arguments) {
    let _ = writeln!(out, "{line}");
}

fn put_panel(out: &mut String, panel: &Panel) {
    let points = panel.series.iter().flat_map(|series| &series.points);
    let across = axis(points.clone().map(|point| point.0), WIDTH);
    let up = axis(points.map(|point| point.1), HEIGHT);
    put(
        out,
        format_args!(
            "<text x=\"0\" y=\"-14\" font-weight=\"bold\">{}</text>",
            panel.title
        ),
    );
    put_ticks_across(out, &across);
    put_ticks_up(out, &up);
    put(
        out,
        format_args!("<path d=\"M0 0V{HEIGHT}H{WIDTH}\" fill=\"none\" stroke=\"#333\"/>"),
    );
    put(
        out,
        format_args!(
            "<text x=\"{}\" y=\"{}\" text-anchor=\"middle\">records</text>",
            WIDTH / 2.0,
            HEIGHT + 36.0
        ),
    );
    for (number, series) in panel.series.iter().enumerate() {
        put_curve(out, number, series, &across, &up);
    }
}

fn put_ticks_across(out: &mut String, across: &Axis) {
    for tick in across.ticks(&[1.0]) {
        let x = across.position(tick);
        put(
            out,
            format_args!("<path d=\"M{x:.1} 0V{HEIGHT}\" stroke=\"#ddd\"/>"),
        );
        put(
            out,
            format_args!(
                "<text x=\"{x:.1}\" y=\"{}\" text-anchor=\"middle\">{tick}</text>",
                HEIGHT + 18.0
            ),
        );
    }
}

fn put_ticks_up(out: &mut String, up: &Axis) {
    for tick in up.ticks(&[1.0, 2.0, 5.0]) {
        let y = HEIGHT - up.position(tick);
        let label = (tick * 1000.0).round() / 1000.0;
        put(
            out,
            format_args!("<path d=\"M0 {y:.1}H{WIDTH}\" stroke=\"#ddd\"/>"),
        );
        put(
            out,
            format_args!(
                "<text x=\"-8\" y=\"{:.1}\" text-anchor=\"end\">{label}</text>",
                y + 4.0
            ),
        );
    }
}

fn put_curve(out: &mut String, number: usize, series: &Series, across: &Axis, up: &Axis) {
    let place = |(x, y): &(f64, f64)| (across.position(*x), HEIGHT - up.position(*y));
    let places: Vec<(f64, f64)> = series.points.iter().map(place).collect();
    let line: Vec<String> = places
        .iter()
        .map(|(x, y)| format!("{x:.1},{y:.1}"))
        .collect();
    put(
        out,
        format_args!(
            "<polyline points=\"{}\" {}/>",
            line.join(" "),
            stroke(number)
        ),
    );
    for (x, y) in places {
        put(
            out,
            format_args!(
                "<circle cx=\"{x:.1}\" cy=\"{y:.1}\" r=\"3\" fill=\"{}\"/>",
                colour(number)
            ),
        );
    }
}

fn put_legend(out: &mut String, panel: &Panel) {
    let top = TOP + HEIGHT + 60.0;
    for (number, series) in panel.series.iter().enumerate() {
        let x = LEFT + (number % 2) as f64 * (WIDTH + GAP);
        let y = top + (number / 2) as f64 * LEGEND_LINE;
        put(
            out,
            format_args!("<path d=\"M{x} {y}h40\" {}/>", stroke(number)),
        );
        put(
            out,
            format_args!(
                "<text x=\"{}\" y=\"{}\">{}</text>",
                x + 48.0,
                y + 4.0,
                series.name
            ),
        );
    }
}

fn colour(number: usize) -> &'static str {
    COLOURS[number % COLOURS.len()]
}

fn stroke(number: usize) -> String {
    let dashes = DASHES[number % DASHES.len()];
    format!(
        "fill=\"none\" stroke=\"{}\" stroke-width=\"2\" stroke-dasharray=\"{dashes}\"",
        colour(number)
    )
}
