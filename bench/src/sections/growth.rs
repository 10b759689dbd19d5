//! How times grow with the number of records, for plain and awkward shapes, and the awkward shapes against plain ones.

use super::{measure_search, Searched, Setting};
use crate::archive::Archive;
use crate::chart::{Panel, Series};
use crate::clock::{run_in_turn, side, Side};
use crate::records::records;
use crate::report::{size, time, Goal, Report, Table};
use crate::shapes::Shape;

/// What was measured of one shape with one number of records.
struct Point {
    shape: Shape,
    records: usize,
    bytes: usize,
    blocks: usize,
    check: f64,
    search: Searched,
}

impl Point {
    fn check_per_byte(&self) -> f64 {
        self.check / self.bytes as f64
    }

    fn search_per_byte(&self) -> f64 {
        self.search.seconds / self.search.bytes
    }
}

/// Measures every shape at every size, and gives the curves.
pub fn measure(setting: &Setting, report: &mut Report) -> [Panel; 2] {
    let points: Vec<Point> = setting
        .sizes
        .growth
        .iter()
        .flat_map(|count| measure_points(setting, *count))
        .collect();
    report.add_table(growth_table(&points));
    compare_shapes(&points, report);
    let curves = |value: fn(&Point) -> f64| {
        Shape::ALL
            .iter()
            .map(|shape| series(*shape, &points, value))
            .collect()
    };
    [
        Panel {
            title: "check: nanoseconds per byte of the file",
            series: curves(|point| 1e9 * point.check_per_byte()),
        },
        Panel {
            title: "search: nanoseconds per byte of the opened blocks",
            series: curves(|point| 1e9 * point.search_per_byte()),
        },
    ]
}

/// All shapes of so many records; their checks take turns.
fn measure_points(setting: &Setting, count: usize) -> Vec<Point> {
    let records = records(count);
    let mut archives: Vec<Archive> = Shape::ALL
        .iter()
        .map(|shape| Archive::new(shape.archive(&records), count))
        .collect();
    let sides: Vec<Side> = archives
        .iter_mut()
        .map(|archive| side(|| archive.check()))
        .collect();
    let checks = run_in_turn(setting.sizes.rounds, sides);
    let measured = Shape::ALL.iter().zip(&archives).zip(checks);
    measured
        .map(|((shape, archive), check)| Point {
            shape: *shape,
            records: count,
            bytes: archive.bytes.len(),
            blocks: archive.blocks(),
            check,
            search: measure_search(setting, archive, &records),
        })
        .collect()
}

fn growth_table(points: &[Point]) -> Table {
    let about = "Check: time per byte of the file. Search: one lookup, per opened block and per byte of the opened blocks. \
        Where these stay level while the file grows a thousand times, the cost is linear.";
    let head = [
        "shape",
        "records",
        "file",
        "blocks",
        "check",
        "per byte",
        "lookup",
        "opened",
        "per block",
        "per opened byte",
    ];
    let mut table = Table::new("Growth", about, &head);
    for shape in Shape::ALL {
        for point in points.iter().filter(|point| point.shape == shape) {
            table.add_row(&[
                shape.name(),
                &point.records.to_string(),
                &size(point.bytes),
                &point.blocks.to_string(),
                &time(point.check),
                &format!("{:.2} ns", 1e9 * point.check_per_byte()),
                &time(point.search.seconds),
                &format!("{:.0}", point.search.blocks),
                &time(point.search.seconds / point.search.blocks),
                &format!("{:.2} ns", 1e9 * point.search_per_byte()),
            ]);
        }
    }
    table
}

/// Each awkward shape at the largest size, against plainer ones of the same records.
fn compare_shapes(points: &[Point], report: &mut Report) {
    let largest = points.iter().map(|point| point.records).max().unwrap_or(0);
    let largest = points.iter().filter(|point| point.records == largest);
    for point in largest.clone() {
        for (plainer, alike) in point.shape.plainer_shapes() {
            let other = largest.clone().find(|other| other.shape == *plainer);
            let ratio = other.map_or(0.0, |o| point.check_per_byte() / o.check_per_byte());
            let names = (point.shape.name(), plainer.name());
            let what = format!("check, {}: time per byte against {}", names.0, names.1);
            let goal = if *alike {
                Goal::AtMost(2.0)
            } else {
                Goal::None
            };
            report.add_goal(&what, ratio, goal);
        }
    }
}

fn series(shape: Shape, points: &[Point], value: fn(&Point) -> f64) -> Series {
    let own = points.iter().filter(|point| point.shape == shape);
    Series {
        name: shape.name(),
        points: own
            .map(|point| (point.records as f64, value(point)))
            .collect(),
    }
}
