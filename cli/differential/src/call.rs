//! A call on a file or two, of the writer on records, of the import on a dump, or on a text: which function, with what, and how much room. The
//! steps of a session are one call.

use zs_reference::reader::Query;
use zs_reference::session::Step;
use zs_reference::writer::Counts;

/// A call, as both implementations get it.
#[derive(Debug, Clone, PartialEq, Eq)]
pub enum Call {
    /// The check, with so many places on the work list.
    Check {
        /// Places of the work list.
        work: usize,
    },
    /// Reading front to back.
    Read {
        /// What is asked for.
        query: Query,
        /// Places of the result list.
        results: usize,
    },
    /// The search through the index.
    Search {
        /// What is asked for.
        query: Query,
        /// Places of the opened list.
        opened: usize,
        /// Places of the result list.
        results: usize,
    },
    /// Handing back a record, and the separate yes or no.
    Record {
        /// Offset of the part.
        offset: u64,
        /// Its length.
        length: u64,
    },
    /// Where the metadata lie.
    Metadata,
    /// Whether a text may be metadata; the bytes that the call is made on are the text.
    IsMetadata,
    /// Writing a file; the bytes that the call is made on are the records.
    Write {
        /// The metadata.
        metadata: Vec<u8>,
        /// How many records and entries the blocks hold.
        counts: Counts,
        /// Bytes of the output.
        output: usize,
    },
    /// Importing a SIM phonebook; the bytes that the call is made on are the dump.
    ImportSim {
        /// Bytes of a name field.
        name_length: u64,
        /// Bytes of the output.
        output: usize,
    },
    /// Where a store of the file goes, and all of its stores.
    Store {
        /// The number of the store.
        i: u64,
    },
    /// Carrying out the stores of a written file up to a cut, and the check of what is there then.
    Cut {
        /// How many whole stores arrive.
        whole: usize,
        /// How many bytes of the next one.
        bytes: usize,
    },
    /// Comparing the file with a second one.
    Compare {
        /// The second file.
        second: Vec<u8>,
        /// Places of the work list.
        work: usize,
        /// Places of the list.
        list: usize,
    },
    /// Handing back a part of the file or of a second one.
    Show {
        /// The second file.
        second: Vec<u8>,
        /// Which of the two.
        which: u64,
        /// Offset of the part.
        offset: u64,
        /// Its length.
        length: u64,
    },
    /// All steps of a session; the bytes that the call is made on are these steps as stored cases have them.
    Session {
        /// The steps.
        steps: Vec<Step>,
    },
}

/// How the lists of a call, or its output, compare with what its answer needs.
#[derive(Debug, Clone, Copy, PartialEq, Eq)]
pub enum Room {
    /// More than enough.
    Plenty,
    /// Just enough.
    Exact,
    /// The opened list, the work list or the output is one place short.
    FirstShort,
    /// The result list, or the list of differences, is one place short.
    ResultsShort,
    /// The output is one byte too short for the file that has whole records as keys, which is longer.
    WholeShort,
    /// Any number of places.
    Any,
}

impl Call {
    /// The second file, where the call is one on two files.
    pub fn second(&self) -> Option<&[u8]> {
        match self {
            Call::Compare { second, .. } | Call::Show { second, .. } => Some(second),
            _ => None,
        }
    }

    /// The call in words, for a saved case.
    pub fn text(&self) -> String {
        match self {
            Call::Check { work } => format!("call: check\nwork places: {work}\n"),
            Call::Read { query, results } => {
                let query = query_text(query);
                format!("call: read\n{query}result places: {results}\n")
            }
            Call::Search {
                query,
                opened,
                results,
            } => {
                let query = query_text(query);
                format!("call: search\n{query}opened places: {opened}\nresult places: {results}\n")
            }
            Call::Record { offset, length } => {
                format!("call: record\noffset: {offset}\nlength: {length}\n")
            }
            Call::Metadata => "call: metadata\n".to_string(),
            Call::IsMetadata => "call: is_metadata\n".to_string(),
            Call::Write {
                metadata,
                counts,
                output,
            } => {
                let metadata = hex(metadata);
                format!("call: write\nmetadata: {metadata}\n{counts:?}\nbytes of the output: {output}\n")
            }
            Call::ImportSim {
                name_length,
                output,
            } => {
                format!("call: import_sim\nbytes of a name field: {name_length}\nbytes of the output: {output}\n")
            }
            Call::Store { i } => format!("call: store\nnumber: {i}\n"),
            Call::Cut { whole, bytes } => {
                format!(
                    "call: check after a cut\nwhole stores: {whole}\nbytes of the next: {bytes}\n"
                )
            }
            Call::Compare { work, list, .. } => {
                format!("call: compare\nwork places: {work}\nplaces of the list: {list}\n")
            }
            Call::Show {
                which,
                offset,
                length,
                ..
            } => format!("call: show\nwhich: {which}\noffset: {offset}\nlength: {length}\n"),
            Call::Session { steps } => {
                let lines = steps.iter().enumerate();
                let lines = lines.map(|(at, step)| format!("step {at}: {}\n", step_text(step)));
                format!("call: session\n{}", lines.collect::<String>())
            }
        }
    }
}

fn step_text(step: &Step) -> String {
    match step {
        Step::Afresh { room } => format!("afresh, on an output of {room} bytes"),
        Step::Begin { metadata, counts } => {
            format!("begin, {counts:?}, metadata {}", hex(metadata))
        }
        Step::Add(record) => format!("add {} bytes: {}", record.len(), hex(record)),
        Step::Close => "close the block".to_string(),
        Step::Finish => "finish".to_string(),
        Step::Grow(bytes) => format!("the output grows by {bytes} bytes"),
    }
}

fn query_text(query: &Query) -> String {
    let stop = match &query.stop {
        Some(stop) => hex(stop),
        None => "not given".to_string(),
    };
    let (start, prefix) = (hex(&query.start), hex(&query.prefix));
    format!("start: {start}\nstop: {stop}\nprefix: {prefix}\n")
}

fn hex(bytes: &[u8]) -> String {
    if bytes.is_empty() {
        "empty".to_string()
    } else {
        bytes.iter().map(|byte| format!("{byte:02x}")).collect()
    }
}
