//! CRC-64 of pieces by their length: eight one-bit steps for every byte, the library's CRC, and that of an earlier build, if one is named.

use super::Setting;
use crate::clock::{median, median_ratio, side, time_in_turn, Side};
use crate::foreign::xz_crc64;
use crate::loaded::{Checksum, Libraries};
use crate::report::{ratio, time, Goal, Report, Table};

/// The length of a piece in words and in bytes, and its speed against the earlier build.
type Length = (&'static str, usize, Goal);

/// Pieces that are shorter than the file.
const SHORTER: [Length; 15] = [
    ("11 bytes", 11, Goal::None),
    ("20 bytes", 20, Goal::None),
    ("50 bytes", 50, Goal::None),
    ("100 bytes", 100, Goal::None),
    ("200 bytes", 200, Goal::None),
    ("511 bytes", 511, Goal::None),
    ("512 bytes", 512, Goal::None),
    ("600 bytes", 600, Goal::None),
    ("1 KiB", 1 << 10, Goal::AtLeast(2.0)),
    ("1087 bytes", 1087, Goal::None),
    ("2 KiB", 1 << 11, Goal::None),
    ("4 KiB", 1 << 12, Goal::None),
    ("8 KiB", 1 << 13, Goal::None),
    ("16 KiB", 1 << 14, Goal::AtLeast(5.0)),
    ("64 KiB", 1 << 16, Goal::AtLeast(5.0)),
];
/// The speed of every length against the earlier build.
const LEAST: Goal = Goal::AtLeast(0.97);
/// Shorter pieces lie within so many bytes, which the processor's caches hold.
const WITHIN: usize = 1 << 18;
/// A turn of shorter pieces takes so many bytes.
const TURN: usize = 1 << 22;

/// Pieces of one length, all of which a turn takes.
struct Pieces<'a> {
    bytes: &'a [u8],
    length: usize,
}

/// What was measured of a length.
struct Measured {
    /// Seconds for one piece: by eight one-bit steps for every byte, by the library, and by the earlier build.
    seconds: Vec<f64>,
    /// The library's speed against the first and the last of these.
    gains: Vec<f64>,
}

impl Measured {
    /// The speed against the earlier build.
    fn gain(&self) -> Option<f64> {
        self.gains.get(1).copied()
    }
}

impl<'a> Pieces<'a> {
    fn new(file: &'a [u8], length: usize) -> Self {
        Pieces {
            bytes: &file[..file.len().min(WITHIN.max(length))],
            length,
        }
    }

    fn count(&self) -> usize {
        (TURN / self.length).max(1)
    }

    /// The CRCs of all pieces, in one number. The pieces lie side by side, and begin again at the first one.
    fn join_crcs(&self, crc: Checksum) -> u64 {
        let pieces = self.bytes.chunks_exact(self.length).cycle();
        let crcs = pieces.take(self.count()).map(|piece| crc.of(piece));
        crcs.fold(0, |joined, crc| joined ^ crc)
    }

    /// All ways and liblzma give the same for each piece.
    fn compare(&self, ways: &[Checksum]) {
        for piece in self.bytes.chunks_exact(self.length) {
            let crc = xz_crc64(piece);
            assert!(ways.iter().all(|way| way.of(piece) == crc));
        }
    }

    /// A side for each way. They run the same code here, and differ by the address that it calls.
    fn sides<'b>(&'b self, ways: &'b [Checksum]) -> impl Iterator<Item = Side<'b>> + 'b {
        ways.iter().map(|way| side(|| self.join_crcs(*way)))
    }

    fn measured(&self, turns: &[Vec<f64>]) -> Measured {
        let seconds = turns
            .iter()
            .map(|turns| median(turns.clone()) / self.count() as f64);
        let others = turns.iter().step_by(2);
        Measured {
            seconds: seconds.collect(),
            gains: others.map(|other| median_ratio(other, &turns[1])).collect(),
        }
    }
}

/// By eight one-bit steps for every byte, by the library, and by the earlier build.
fn ways(libraries: &Libraries) -> Vec<Checksum> {
    let now = &libraries.now;
    let mut ways = vec![now.crc64_by_bits, now.crc64];
    ways.extend(libraries.before.as_ref().map(|before| before.crc64));
    ways
}

/// Measures pieces of the file, and the file.
pub fn measure(setting: &Setting, file: &[u8], report: &mut Report) {
    let whole = [("the large file", file.len(), Goal::AtLeast(5.0))];
    let mut measured = measure_lengths(setting, file, &SHORTER, setting.sizes.short_rounds);
    measured.extend(measure_lengths(
        setting,
        file,
        &whole,
        setting.sizes.close_rounds,
    ));
    let lengths: Vec<&Length> = SHORTER.iter().chain(&whole).collect();
    add_goals(&lengths, &measured, report);
    let mut table = empty_table(setting);
    for (length, measured) in lengths.iter().zip(&measured) {
        let seconds = |number| cell(&measured.seconds, number, time);
        let gain = |number| cell(&measured.gains, number, ratio);
        table.add_row(&[
            length.0,
            &seconds(0),
            &seconds(2),
            &seconds(1),
            &gain(0),
            &gain(1),
        ]);
    }
    report.add_table(table);
}

fn measure_lengths(
    setting: &Setting,
    file: &[u8],
    lengths: &[Length],
    rounds: usize,
) -> Vec<Measured> {
    let pieces = lengths.iter().map(|length| Pieces::new(file, length.1));
    let pieces: Vec<Pieces> = pieces.collect();
    let ways = ways(&setting.libraries);
    pieces.iter().for_each(|pieces| pieces.compare(&ways));
    let sides = pieces.iter().flat_map(|pieces| pieces.sides(&ways));
    let times = time_in_turn(rounds, sides.collect());
    let turns = pieces.iter().zip(times.chunks(ways.len()));
    turns
        .map(|(pieces, turns)| pieces.measured(turns))
        .collect()
}

/// One of some numbers in words, `-` where there is no such number.
fn cell(numbers: &[f64], number: usize, words: impl Fn(f64) -> String) -> String {
    let number = numbers.get(number).copied();
    number.map_or("-".to_string(), words)
}

/// Those of some lengths, and one of the length that gains least.
fn add_goals(lengths: &[&Length], measured: &[Measured], report: &mut Report) {
    let gains = measured.iter().map(Measured::gain);
    for (length, gain) in lengths.iter().zip(gains.clone()) {
        if !matches!(length.2, Goal::None) {
            let what = format!("CRC-64 of {}: speed against the earlier build", length.0);
            report.add_goal(&what, gain, length.2);
        }
    }
    let gains = lengths.iter().zip(gains);
    let named = gains.filter_map(|(length, gain)| gain.map(|gain| (gain, length.0)));
    let least = named.min_by(|x, y| x.0.total_cmp(&y.0));
    let name = least.map_or(String::new(), |(_, name)| format!(", {name}"));
    let what =
        format!("CRC-64 of the length that gains least{name}: speed against the earlier build");
    report.add_goal(&what, least.map(|(gain, _)| gain), LEAST);
}

fn empty_table(setting: &Setting) -> Table {
    let about = format!(
        "One call of the library's CRC, that of the earlier build and that of this one, and of this build's CRC by eight one-bit steps for \
         every byte. A time is the mean over a turn of calls, the median of {} turns, of {} for the large file; a \
         ratio is the median over the turns too. The pieces of a turn lie side \
         by side in the first {} KiB of the large file, over and over until they have {} MiB together; no call waits for the answer of the one \
         before it. The large file is one piece.",
        setting.sizes.short_rounds,
        setting.sizes.close_rounds,
        WITHIN >> 10,
        TURN >> 20
    );
    let head = [
        "piece",
        "eight one-bit steps a byte",
        "before",
        "now",
        "speed now / eight steps",
        "speed now / before",
    ];
    Table::new("CRC-64 by length", &about, &head)
}
