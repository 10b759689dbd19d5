//! What is measured, one module for each group of rows.

pub mod block_sizes;
pub mod checking;
pub mod checksums;
pub mod comparing;
pub mod crc_lengths;
pub mod earlier_build;
pub mod earlier_library;
pub mod growth;
pub mod importing;
pub mod keys;
pub mod lookups;
pub mod metadata;
pub mod profile;
pub mod results;
pub mod sessions;
pub mod writing;

use std::path::Path;

use crate::archive::{Archive, Lists};
use crate::clock::{measure_time, median};
use crate::loaded::Libraries;
use crate::others::Programs;
use crate::records::{draw, key};

/// Lookups in one archive end after this many seconds.
const LONG_ENOUGH: f64 = 0.5;

/// How much is measured.
pub struct Sizes {
    /// Records of the large archive.
    pub records: usize,
    /// Rounds of a comparison.
    pub rounds: usize,
    /// Rounds where both sides are builds or forms of the same code, which differ by little.
    pub close_rounds: usize,
    /// Rounds of the same where a turn takes little time.
    pub short_rounds: usize,
    /// Long records.
    pub notes: usize,
    /// Lookups within this process.
    pub lookups: usize,
    /// Lookups as processes.
    pub processes: usize,
    /// Numbers of records whose archives show how times grow; the last one serves for the awkward shapes.
    pub growth: &'static [usize],
}

/// For a document.
pub const FULL: Sizes = Sizes {
    records: 1_000_000,
    notes: 10_000,
    rounds: 9,
    close_rounds: 27,
    short_rounds: 101,
    lookups: 2000,
    processes: 60,
    growth: &[1_000, 10_000, 100_000, 1_000_000],
};

/// To see that everything runs.
pub const QUICK: Sizes = Sizes {
    records: 20_000,
    notes: 200,
    rounds: 3,
    close_rounds: 3,
    short_rounds: 5,
    lookups: 100,
    processes: 5,
    growth: &[1_000, 10_000],
};

/// What every section is given.
pub struct Setting<'a> {
    /// How much is measured.
    pub sizes: Sizes,
    /// The programs that were built for this.
    pub programs: Programs,
    /// The library, loaded, and an earlier build of it, if one is named.
    pub libraries: Libraries,
    /// A folder that is removed afterwards.
    pub folder: &'a Path,
    /// The records of the large archive, in order.
    pub records: &'a [Vec<u8>],
    /// A file that has them as lines.
    pub lines: &'a Path,
}

/// Medians over lookups.
pub struct Searched {
    /// The time of one.
    pub seconds: f64,
    /// How many blocks it opens.
    pub blocks: f64,
    /// How many bytes the CRCs of these cover.
    pub bytes: f64,
}

/// Looks up records drawn from all in an archive.
pub fn measure_search(setting: &Setting, archive: &Archive, records: &[Vec<u8>]) -> Searched {
    let [searched] = measure_searches(setting, [archive], records);
    searched
}

/// Looks up records drawn from all, each by a prefix that only it has, in one archive after the other. The same lookup goes before,
/// untimed.
pub fn measure_searches<const N: usize>(
    setting: &Setting,
    archives: [&Archive; N],
    records: &[Vec<u8>],
) -> [Searched; N] {
    let mut lookups = archives.map(Lookups::new);
    for record in draw(records, setting.sizes.lookups) {
        for lookups in &mut lookups {
            lookups.look_up(record);
        }
        if lookups.iter().all(Lookups::are_enough) {
            break;
        }
    }
    lookups.map(Lookups::medians)
}

/// Lookups in an archive.
struct Lookups<'a> {
    archive: &'a Archive,
    lists: Lists,
    seconds: Vec<f64>,
    blocks: Vec<f64>,
    bytes: Vec<f64>,
}

impl<'a> Lookups<'a> {
    fn new(archive: &'a Archive) -> Self {
        Lookups {
            archive,
            lists: Lists::default(),
            seconds: Vec::new(),
            blocks: Vec::new(),
            bytes: Vec::new(),
        }
    }

    fn look_up(&mut self, record: &[u8]) {
        let found = self.archive.lookup(key(record));
        assert_eq!(found.records, [record]);
        let lengths = found.opened.iter().map(|block| block.len());
        self.blocks.push(found.opened.len() as f64);
        self.bytes.push(lengths.sum::<usize>() as f64);
        let search = || self.archive.search(key(record), &mut self.lists);
        self.seconds.push(measure_time(search));
    }

    fn are_enough(&self) -> bool {
        self.seconds.iter().sum::<f64>() > LONG_ENOUGH
    }

    fn medians(self) -> Searched {
        Searched {
            seconds: median(self.seconds),
            blocks: median(self.blocks),
            bytes: median(self.bytes),
        }
    }
}
