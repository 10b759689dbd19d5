//! Tests of the independent reader, of the maker of files, and of the stored corpus.

mod compare;
mod corpus;
mod drawn;
mod examples;
mod json;
mod opening;
mod results;
mod samples;
mod session;
mod session_cases;
mod sim;
mod sim_drawn;
mod stores;
mod support;
mod writer;
