//! The checksums alone, against Rust as one would write it, liblzma and OpenSSL.

use super::Setting;
use crate::clock::{run_in_turn, side, Side};
use crate::foreign::{openssl_sha256, proved_crc64, proved_sha256, xz_crc64};
use crate::idiomatic;
use crate::report::{ratio, size, speed, Report, Table};

/// Measures them on these bytes.
pub fn measure(setting: &Setting, bytes: &[u8], report: &mut Report) {
    compare(bytes);
    let sides: Vec<Side> = vec![
        side(|| proved_crc64(bytes)),
        side(|| idiomatic::crc64(bytes)),
        side(|| xz_crc64(bytes)),
        side(|| proved_sha256(bytes)),
        side(|| idiomatic::sha256(bytes)),
        side(|| openssl_sha256(bytes)),
    ];
    let times = run_in_turn(setting.sizes.rounds, sides);
    let about = format!(
        "{} in memory. liblzma and OpenSSL use the processor's own instructions where it has them.",
        size(bytes.len())
    );
    let head = ["what", "speed", "speed of the proved one / this"];
    let mut table = Table::new("Checksums alone", &about, &head);
    let names = [
        ("CRC-64, proved", 0),
        ("CRC-64, Rust -O by a table of 256", 0),
        ("CRC-64, liblzma", 0),
        ("SHA-256, proved", 3),
        ("SHA-256, Rust -O", 3),
        ("SHA-256, OpenSSL", 3),
    ];
    for ((what, proved), seconds) in names.iter().zip(&times) {
        table.add_row(&[
            what,
            &speed(bytes.len(), *seconds),
            &ratio(seconds / times[*proved]),
        ]);
    }
    report.add_table(table);
}

/// All of them give the same.
fn compare(bytes: &[u8]) {
    assert_eq!(proved_crc64(bytes), xz_crc64(bytes));
    assert_eq!(proved_crc64(bytes), idiomatic::crc64(bytes));
    let digest = openssl_sha256(bytes);
    assert_eq!(digest, idiomatic::sha256(bytes));
    assert_eq!(proved_sha256(bytes).to_le_bytes(), digest[..8]);
}
