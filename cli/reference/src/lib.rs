//! A second, independent reader, writer and comparison of ZS files, and importer of SIM phonebooks.
//!
//! It judges another implementation and shares no code with it; docs/DECISIONS.md says more. What it does, and the numbers of
//! refusals, are those of docs/FORMAT.md.
//!
//! * [`reader`] checks, reads and searches files, and hands back records.
//! * [`writer`] writes files from metadata and records.
//! * [`session`] writes files one record at a time.
//! * [`stores`] gives the stores by which a finished file comes to a disk, and what a cut leaves of them.
//! * [`sim`] imports SIM phonebooks: records for the writer.
//! * [`compare`] lists what differs between two files, and hands back the records listed.
//! * [`maker`] builds files: sound ones, unusual ones and damaged ones.
//! * [`corpus`] names a fixed set of files and cases with the answers due.
//! * [`samples`] makes the archives and the phonebook of fictitious contacts that `make demo` shows.

#![forbid(unsafe_code)]
#![warn(missing_docs)]

pub mod checksums;
pub mod compare;
pub mod corpus;
mod json;
pub mod maker;
pub mod reader;
pub mod samples;
pub mod session;
pub mod sim;
pub mod stores;
pub mod writer;
