//! Recognising metadata: long JSON objects of several kinds, against their CRC alone, the second recogniser and `serde_json`.

use serde::de::IgnoredAny;
use zs_reference::reader::is_metadata;

use super::Setting;
use crate::clock::{run_in_turn, side, Side};
use crate::foreign::proved_crc64;
use crate::report::{ratio, size, speed, Report, Table};

/// One part in so many of the records makes a text.
const PART: usize = 4;

/// Measures each kind of text.
pub fn measure(setting: &Setting, report: &mut Report) {
    let about = "Each text is one JSON object in memory. `serde_json` passes over the values without keeping them, after UTF-8 was tested.";
    let head = [
        "text",
        "size",
        "the proved recogniser",
        "its time / CRC-64 alone",
        "its time / second recogniser",
        "its time / `serde_json`",
    ];
    let mut table = Table::new("Recognising metadata", about, &head);
    let records = &setting.records[..setting.records.len() / PART];
    for (kind, text) in [
        ("strings", list(records.iter().map(|r| quote(r)))),
        (
            "numbers",
            list((0..2 * records.len()).map(|n| format!("-{n}.5e+07"))),
        ),
        (
            "arrays, 63 deep",
            list((0..records.len() / 2).map(|_| nest(62))),
        ),
        (
            "one string",
            format!("{{\"a\":{}}}", quote(&records.concat())),
        ),
    ] {
        add_row(setting, kind, text.as_bytes(), &mut table);
    }
    report.add_table(table);
}

fn add_row(setting: &Setting, kind: &str, text: &[u8], table: &mut Table) {
    assert!(zs_library::is_metadata(text));
    assert!(is_metadata(text));
    assert!(is_json(text));
    let sides: Vec<Side> = vec![
        side(|| zs_library::is_metadata(text)),
        side(|| proved_crc64(text)),
        side(|| is_metadata(text)),
        side(|| is_json(text)),
    ];
    let times = run_in_turn(setting.sizes.rounds, sides);
    table.add_row(&[
        kind,
        &size(text.len()),
        &speed(text.len(), times[0]),
        &ratio(times[0] / times[1]),
        &ratio(times[0] / times[2]),
        &ratio(times[0] / times[3]),
    ]);
}

fn is_json(text: &[u8]) -> bool {
    std::str::from_utf8(text).map_or(false, |text| {
        serde_json::from_str::<IgnoredAny>(text).is_ok()
    })
}

/// An object with one member, an array.
fn list(values: impl Iterator<Item = String>) -> String {
    format!("{{\"list\": [{}]}}", values.collect::<Vec<_>>().join(", "))
}

/// Records have no byte that a string would escape.
fn quote(record: &[u8]) -> String {
    format!("\"{}\"", String::from_utf8_lossy(record).replace('\t', " "))
}

/// Arrays within each other.
fn nest(depth: usize) -> String {
    "[".repeat(depth) + &"]".repeat(depth)
}
