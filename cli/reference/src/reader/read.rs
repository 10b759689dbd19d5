//! Reading front to back under a query: 1 to 9, the block stage, then 27.

use super::block::BlockStage;
use super::header::header;
use super::query::Query;
use super::results::pack;
use super::{fill_list, Refusal};

/// The answer of reading front to back.
#[derive(Debug, Clone, PartialEq, Eq)]
pub struct ReadAnswer {
    /// The refusal, or 0.
    pub number: u64,
    /// Place of the refusal, or 0.
    pub place: u64,
    /// How many records match.
    pub matches: u64,
    /// The whole result list: a number for each match, then zeros.
    pub results: Vec<u64>,
}

/// Reads all data blocks in file order. The result list has `result_places` places.
pub fn read(file: &[u8], query: &Query, result_places: usize) -> ReadAnswer {
    match matches(file, query, result_places) {
        Ok(numbers) => ReadAnswer {
            number: 0,
            place: 0,
            matches: numbers.len() as u64,
            results: fill_list(numbers, result_places),
        },
        Err(refusal) => ReadAnswer {
            number: refusal.number,
            place: refusal.place,
            matches: 0,
            results: fill_list(Vec::new(), result_places),
        },
    }
}

/// The numbers of all matches. Those beyond the places are counted alone: 27 comes after the whole block stage.
fn matches(file: &[u8], query: &Query, places: usize) -> Result<Vec<u64>, Refusal> {
    let header = header(file)?;
    let mut count = 0_usize;
    let mut numbers = Vec::new();
    for found in BlockStage::new(file, header.blocks_at) {
        let (block, _) = found?;
        if !block.is_data() {
            continue;
        }
        let records = block.items(file).flatten();
        for record in records.filter(|record| query.matches(record.bytes)) {
            count += 1;
            if count <= places {
                numbers.push(pack(record.at, record.bytes.len()));
            }
        }
    }
    if count > places {
        return Err(Refusal::of_file(27));
    }
    Ok(numbers)
}
