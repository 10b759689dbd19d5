//! `zs import`: an archive of contacts from a phone.

use std::path::Path;

use zs_library::import_sim;

use crate::arguments::Sim;
use crate::encoding::{lack_memory, Encoded};
use crate::escapes::{escape_name, quote};
use crate::failure::Failure;
use crate::input::{read_any, LONGEST};
use crate::making::{Argument, Order};
use crate::memory::Memory;
use crate::output::format_count;
use crate::progress::show_while;
use crate::refusals::Refusal;

/// The bytes of a record after its name field: the number, and what belongs to it.
pub const NUMBER_BYTES: u64 = 14;
/// The library takes no longer name field.
pub const LONGEST_NAME: u64 = 241;
/// No record of an archive takes fewer bytes there: its length, and those after the name.
const SHORTEST: u64 = 1 + NUMBER_BYTES;
/// What the length of a record takes, at most.
const WIDEST: usize = 2;
/// The length of a number that isn't set.
const UNSET: u8 = 0xff;

/// Imports the phonebook of a SIM card. A name field that is too long is told before anything is read.
pub fn run(asked: &Sim) -> Result<(), Failure> {
    if is_refused(asked.name_length) {
        let detail = format!("--name-length is {}", asked.name_length);
        return Err(Failure::Refused(Refusal::of_making(32, Some(detail))));
    }
    let order = order(asked);
    order.carry_out(|metadata| {
        let dump = Dump::read(asked)?;
        let length = dump.bytes.len();
        let records = show_while("importing", &asked.dump, length, || dump.import())?;
        order.make(metadata, &records)
    })
}

/// The file that is refused, if one is.
pub fn file_at_fault<'a>(asked: &'a Sim, outcome: &Result<(), Failure>) -> Option<&'a Path> {
    match is_refused(asked.name_length) {
        true => None,
        false => order(asked).file_at_fault(outcome),
    }
}

fn order(asked: &Sim) -> Order<'_> {
    Order {
        metadata: Argument {
            name: "--metadata",
            given: &asked.metadata,
        },
        input: Argument {
            name: "DUMP",
            given: &asked.dump,
        },
        archive: &asked.archive,
    }
}

/// Whether the library refuses every dump with so long a name field, one without records too.
fn is_refused(name_length: u64) -> bool {
    import_sim(&[], name_length, &mut []).number != 0
}

/// A phonebook as a card has it.
struct Dump {
    bytes: Memory,
    name_length: usize,
}

impl Dump {
    /// Reads a dump, which may have no end. So long a one that its records would fill more than an archive, if none were free and none
    /// had a name, isn't read.
    fn read(asked: &Sim) -> Result<Self, Failure> {
        let record_length = asked.name_length + NUMBER_BYTES;
        let times = (record_length + SHORTEST - 1) / SHORTEST;
        let longest = times * LONGEST as u64;
        let bytes = read_any(&asked.dump, longest)?.ok_or_else(|| {
            let name = escape_name(&asked.dump);
            let limit = format!("more than {longest} bytes, and no longer dump is read");
            Failure::Trouble(format!("{name}: it has {limit}; import it in parts"))
        })?;
        Ok(Dump {
            bytes,
            name_length: asked.name_length as usize,
        })
    }

    /// The bytes of a record.
    fn record_length(&self) -> usize {
        self.name_length + NUMBER_BYTES as usize
    }

    /// How many records there are, free ones too.
    fn number(&self) -> usize {
        self.bytes.len() / self.record_length()
    }

    /// Gives the records that aren't free, sorted.
    fn import(&self) -> Result<Encoded, Failure> {
        let room = self.bytes.len() + WIDEST * self.number();
        let mut records = Memory::zeros(room).map_err(lack_memory)?;
        let imported = import_sim(&self.bytes, self.name_length as u64, &mut records);
        if imported.number != 0 {
            let detail = self.find_detail(imported.number);
            let refusal = Refusal::of_making(imported.number, detail);
            return Err(Failure::Refused(refusal));
        }
        records.truncate(imported.length as usize);
        let records = Encoded::from_library(records);
        // The writer would refuse none with 28 likewise, in words for other inputs.
        match records.number {
            0 => Err(Failure::Refused(Refusal::of_free_records(self.number()))),
            _ => Ok(records),
        }
    }

    /// What is wrong with the dump, for display. That something is wrong is the library's verdict.
    fn find_detail(&self, number: u64) -> Option<String> {
        match number {
            32 => Some(self.describe_length()),
            33 | 34 => self.describe_record(number),
            _ => None,
        }
    }

    fn describe_length(&self) -> String {
        let (length, record) = (self.bytes.len(), self.record_length());
        let whole = format_count(self.number() as u64, "record", "records");
        let left = format_count((length % record) as u64, "byte", "bytes");
        let length = format_count(length as u64, "byte", "bytes");
        format!("it has {length}, and a record has {record}: {whole}, and {left} more")
    }

    /// Says which record the library refuses so, the first one, by having it look at each alone.
    fn describe_record(&self, number: u64) -> Option<String> {
        let (length, name_length) = (self.record_length(), self.name_length);
        let refused = |record: &[u8]| import_sim(record, name_length as u64, &mut []).number;
        let mut records = self.bytes.chunks(length);
        let before = records.position(|record| refused(record) == number)?;
        let (at, of, offset) = (before + 1, self.number(), before * length);
        let (name, rest) = self.bytes[offset..][..length].split_at(name_length);
        let stated = match (number, rest[0]) {
            (33, _) => String::new(),
            (_, UNSET) => format!(", and its number is stated as {UNSET} bytes (FF): none is set"),
            (_, length) => format!(", and its number is stated as {length} bytes"),
        };
        let name = quote(name);
        Some(format!(
            "record {at} of {of}, at byte {offset}: its name field is {name}{stated}"
        ))
    }
}
