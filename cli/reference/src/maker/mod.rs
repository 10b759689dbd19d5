//! Making ZS files for tests, and records of SIM phonebooks.
//!
//! * [`Image`] is a file field by field and block by block. It works out lengths, checksums
//!   and offsets by itself, and lets each of them be set wrong on purpose.
//! * [`Tree`] makes the image of a sound file from groups of records.
//! * [`random`] makes trees and damage from a seed.
//! * [`texts`] makes metadata from a seed, and [`edges`] lists texts that are metadata or nearly so.
//! * [`adn`] makes a record of a SIM phonebook.

mod adn;
mod edges;
mod image;
mod keys;
mod layout;
pub mod random;
pub mod texts;
mod tree;

pub use adn::adn;
pub use edges::edges;
pub use image::{Content, Entry, Image, Plan, Target};
pub use keys::Keys;
pub use layout::{encode, Place};
pub use tree::{Placing, Tree};
