//! Compares the proved library with the independent reader, writer, session, import, stores and comparison.
//!
//! A seed and a number give a [`drawing`]: one file and all calls to be made on it; or records, all calls of the writer on them, and the
//! file written with all calls on that and cuts of its stores; or a dump of a SIM phonebook and all calls of the import on it; or a row of
//! texts that may be metadata; or a row of bytes that may have stores; or the steps of a session. With a file come pairs of files and all calls
//! on these. Each call is a case, and so is each step. Both implementations answer it, [`compare`] looks at everything that they gave and at
//! everything that they were lent, [`tally`] counts, and [`run`] saves what differs.

#![forbid(unsafe_code)]
#![warn(missing_docs)]

pub mod call;
pub mod calls;
pub mod compare;
pub mod damage;
pub mod drawing;
pub mod dump_faults;
pub mod dump_kinds;
pub mod dumps;
pub mod faults;
pub mod frames;
pub mod hostile;
pub mod inputs;
pub mod keys;
pub mod lent;
pub mod outcome;
pub mod pair_calls;
mod pair_cases;
pub mod pair_kinds;
pub mod pairs;
pub mod queries;
mod report;
pub mod run;
pub mod scripts;
mod session_cases;
pub mod session_kinds;
pub mod shapes;
mod shortfalls;
pub mod show_kinds;
pub mod store_calls;
mod store_cases;
pub mod store_kinds;
mod strangers;
pub mod strings;
pub mod tally;
