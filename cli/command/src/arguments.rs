//! What a person can ask for.

use std::ffi::OsString;
use std::path::PathBuf;

use clap::builder::{OsStringValueParser, TypedValueParser};
use clap::{Args, Parser, Subcommand, ValueEnum};
use zs_library::Query;

use crate::escapes::{resolve, Bytes};
use crate::help::{
    ABOUT, COMPARE_EXAMPLES, COMPARE_STATUS, DUMP_EXAMPLES, EXAMPLES, EXPLAIN_EXAMPLES,
    IMPORT_EXAMPLES, INFO_EXAMPLES, MAKE_EXAMPLES, MAKE_INPUTS, OUT, SIM_EXAMPLES, SIM_INPUTS,
    STATUS, VALIDATE_EXAMPLES,
};
use crate::import::{LONGEST_NAME, NUMBER_BYTES};
use crate::records::Form;
use crate::writing::{BLOCK_BYTES, ENTRIES_PER_BLOCK, MOST_PER_BLOCK};

/// The whole command line.
#[derive(Parser)]
#[command(name = "zs", version, about = ABOUT, after_help = EXAMPLES)]
pub struct Arguments {
    #[command(subcommand)]
    pub command: Command,
}

#[derive(Subcommand)]
pub enum Command {
    /// Make an archive of records
    #[command(after_help = format!("{MAKE_INPUTS}\n\n{OUT}\n\n{MAKE_EXAMPLES}\n\n{STATUS}"))]
    Make(Make),
    /// Make an archive of contacts from a phone
    #[command(subcommand, after_help = format!("{IMPORT_EXAMPLES}\n\n{STATUS}"))]
    Import(Import),
    /// Check files against every rule of the format
    #[command(after_help = format!("{VALIDATE_EXAMPLES}\n\n{STATUS}"))]
    Validate(Validate),
    /// Write the records of a file, all or those asked for
    #[command(after_help = format!("{DUMP_EXAMPLES}\n\n{STATUS}"))]
    Dump(Dump),
    /// Show which records two files hold a different number of times
    #[command(after_help = format!("{COMPARE_EXAMPLES}\n\n{COMPARE_STATUS}"))]
    Compare(Compare),
    /// Show what a file is, as JSON
    #[command(after_help = format!("{INFO_EXAMPLES}\n\n{STATUS}"))]
    Info(Info),
    /// Show which blocks a search opens, and why
    #[command(after_help = format!("{EXPLAIN_EXAMPLES}\n\n{STATUS}"))]
    Explain(Explain),
}

#[derive(Args)]
pub struct Make {
    /// What the archive says of itself: one JSON object, or @FILE; @- is standard input
    pub metadata: OsString,
    /// The records, in rising order; - is standard input
    pub input: PathBuf,
    #[command(flatten)]
    pub separation: Separation,
    /// Take the records in any order, and sort them by their bytes
    #[arg(long)]
    pub sort: bool,
    #[command(flatten)]
    pub archive: NewArchive,
}

#[derive(Subcommand)]
pub enum Import {
    /// Make an archive of the phonebook of a SIM card
    #[command(after_help = format!("{SIM_INPUTS}\n\n{OUT}\n\n{SIM_EXAMPLES}\n\n{STATUS}"))]
    Sim(Sim),
}

#[derive(Args)]
pub struct Sim {
    /// The phonebook, as the card has it; - is standard input
    pub dump: PathBuf,
    #[arg(long, value_name = "X", value_parser = number_parser(0, LONGEST_NAME), allow_hyphen_values = true,
        help = format!("Bytes for the name in a record, 0 to {LONGEST_NAME}: the length of a record less {NUMBER_BYTES}"))]
    pub name_length: u64,
    /// What the archive says of itself: one JSON object, or @FILE; @- is standard input
    #[arg(long, value_name = "JSON")]
    pub metadata: OsString,
    #[command(flatten)]
    pub archive: NewArchive,
}

/// Where an archive goes, and how its records are put into blocks.
#[derive(Args)]
pub struct NewArchive {
    /// The archive to be made; - is standard output
    #[arg(value_name = "OUT")]
    pub output: PathBuf,
    #[arg(long, value_name = "N", value_parser = number_parser(1, MOST_PER_BLOCK), allow_hyphen_values = true,
        help = format!("Records in a data block, 1 to {MOST_PER_BLOCK} [default: about {} KiB of them, \
            more where long records begin alike]", BLOCK_BYTES >> 10))]
    pub records_per_block: Option<u64>,
    #[arg(long, value_name = "N", value_parser = number_parser(2, MOST_PER_BLOCK), allow_hyphen_values = true,
        default_value_t = ENTRIES_PER_BLOCK, help = format!("Entries in an index block, 2 to {MOST_PER_BLOCK}"))]
    pub entries_per_block: u64,
    /// Replace a file that is there already, once the new one is whole
    #[arg(long)]
    pub force: bool,
    /// Write OUT itself and not a file beside it, for disks that can't rename; with --force what was there is lost at once
    #[arg(long)]
    pub in_place: bool,
}

#[derive(Args)]
pub struct Validate {
    /// The files to check; - is standard input
    #[arg(value_name = "FILE", required = true)]
    pub files: Vec<PathBuf>,
}

#[derive(Args)]
pub struct Dump {
    /// The archive; - is standard input
    pub file: PathBuf,
    #[command(flatten)]
    pub selection: Selection,
    #[command(flatten)]
    pub separation: Separation,
    /// Write to this file, which appears once it is whole; - is standard output
    #[arg(short, long, value_name = "OUT")]
    pub output: Option<PathBuf>,
    /// Only say how many records there are
    #[arg(long, conflicts_with_all = ["terminator", "length_prefixed"])]
    pub count: bool,
    /// Read front to back, not by the index; the answer is the same
    #[arg(long)]
    pub scan: bool,
    #[command(flatten)]
    pub trust: Trust,
    /// Refuse (27) where more than N records match
    #[arg(long, value_name = "N", value_parser = number_parser(0, u64::MAX), allow_hyphen_values = true)]
    pub max_results: Option<u64>,
}

#[derive(Args)]
pub struct Compare {
    /// The first archive, as an older backup; - is standard input
    #[arg(value_name = "A")]
    pub first: PathBuf,
    /// The second archive, as a newer backup; - is standard input
    #[arg(value_name = "B")]
    pub second: PathBuf,
    /// Only say how many records differ, and how many more B holds than A
    #[arg(long)]
    pub count: bool,
    /// Write to this file, which appears once it is whole; - is standard output
    #[arg(short, long, value_name = "OUT")]
    pub output: Option<PathBuf>,
}

#[derive(Args)]
pub struct Info {
    /// The archive; - is standard input
    pub file: PathBuf,
    /// Only the metadata, as it is stored
    #[arg(short, long)]
    pub metadata_only: bool,
}

#[derive(Args)]
pub struct Explain {
    /// The archive; - is standard input
    pub file: PathBuf,
    #[command(flatten)]
    pub selection: Selection,
    #[command(flatten)]
    pub trust: Trust,
}

/// How records are told apart, in an input or an output.
#[derive(Args)]
pub struct Separation {
    /// What follows each record
    #[arg(long, value_name = "T", default_value = "\\n", value_parser = bytes_parser(), allow_hyphen_values = true)]
    terminator: Bytes,
    /// Each record has its length before it instead
    #[arg(
        long,
        value_name = "FORM",
        conflicts_with = "terminator",
        allow_hyphen_values = true
    )]
    length_prefixed: Option<Length>,
}

impl Separation {
    pub fn form(&self) -> Form<'_> {
        match self.length_prefixed {
            Some(length) => Form::Prefixed(length),
            None => Form::Terminated(&self.terminator.0),
        }
    }
}

/// Which records are asked for.
#[derive(Args)]
pub struct Selection {
    /// Only records that are at least S
    #[arg(long, value_name = "S", value_parser = bytes_parser(), allow_hyphen_values = true)]
    pub start: Option<Bytes>,
    /// Only records that are less than S
    #[arg(long, value_name = "S", value_parser = bytes_parser(), allow_hyphen_values = true)]
    pub stop: Option<Bytes>,
    /// Only records that begin with P
    #[arg(long, value_name = "P", value_parser = bytes_parser(), allow_hyphen_values = true)]
    pub prefix: Option<Bytes>,
}

impl Selection {
    pub fn query<'a>(&'a self) -> Query<'a> {
        let bytes = |given: &'a Option<Bytes>| given.as_ref().map(|given| given.0.as_slice());
        Query {
            start: bytes(&self.start).unwrap_or(&[]),
            stop: bytes(&self.stop),
            prefix: bytes(&self.prefix).unwrap_or(&[]),
        }
    }
}

/// Whether the file is checked first.
#[derive(Args)]
pub struct Trust {
    /// Answer without checking first: matches may be missed, and nobody may change the file meanwhile
    #[arg(long)]
    pub unchecked: bool,
}

/// How a length is written before a record.
#[derive(Clone, Copy, Debug, PartialEq, Eq, ValueEnum)]
pub enum Length {
    /// Seven bits to a byte, lowest first
    Uleb128,
    /// Eight bytes, lowest first
    U64le,
}

/// Takes a whole number, and otherwise says what range it has. A number out of that range is left to the library, which refuses it.
fn number_parser(least: u64, greatest: u64) -> impl Fn(&str) -> Result<u64, String> + Clone {
    let words = format!("give a whole number from {least} to {greatest}");
    move |text| text.parse().map_err(|_| words.clone())
}

/// Takes an argument as bytes, with its escapes resolved.
fn bytes_parser() -> impl TypedValueParser<Value = Bytes> {
    OsStringValueParser::new().try_map(resolve)
}
