//! Reading ZS files: the check, reading front to back, the search, single records, the metadata.
//!
//! Every function takes the whole file as bytes and answers for any bytes at all.
//! A refusal gives its number and place, zero counts, and lists of zeros.

mod block;
mod check;
mod header;
mod number;
mod part;
mod query;
mod read;
mod refusal;
mod results;
mod search;

pub use check::{check, Checked};
pub use header::is_metadata;
pub use number::{number, NumberFault};
pub use part::{metadata, record, within};
pub use query::{may_hold_match, Query};
pub use read::{read, ReadAnswer};
pub use results::unpack;
pub use search::{search, Found};

use refusal::Refusal;

/// A list of `places` numbers that begins with `numbers` and goes on with zeros.
fn fill_list(mut numbers: Vec<u64>, places: usize) -> Vec<u64> {
    numbers.resize(places, 0);
    numbers
}
