//! Refusals, as the functions of this module pass them to each other.

/// A refusal: its number in docs/FORMAT.md, and its place.
#[derive(Debug, Clone, Copy, PartialEq, Eq)]
pub struct Refusal {
    /// Which refusal.
    pub number: u64,
    /// Where in the file, or 0.
    pub place: u64,
}

impl Refusal {
    /// A refusal whose place is always 0.
    pub fn of_file(number: u64) -> Self {
        Refusal { number, place: 0 }
    }

    /// A refusal whose place is a position in the file.
    pub fn at(number: u64, place: usize) -> Self {
        let place = place as u64;
        Refusal { number, place }
    }
}
