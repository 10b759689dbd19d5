//! Records one after the other, as inputs and outputs have them: each before a terminator, or after its length.

use std::fmt;
use std::io::{self, Write};

use crate::arguments::Length;
use crate::layout::take_number;
use crate::output::format_count;

/// Shorter than an output's buffer.
const PIECE: usize = 1 << 12;
/// The bytes of the longest number.
const WIDEST: usize = 9;

/// How records are told apart.
#[derive(Clone, Copy, Debug, PartialEq, Eq)]
pub enum Form<'a> {
    /// This follows each record.
    Terminated(&'a [u8]),
    /// Its length stands before each record.
    Prefixed(Length),
}

impl<'a> Form<'a> {
    /// The records of an input, up to the first that can't be made out.
    pub fn split(self, input: &'a [u8]) -> Records<'a> {
        self.split_arrived(input, Before::default(), true)
    }

    /// The records of what has arrived of an input, after what came before. Unless the input has ended, one that may go on isn't among them.
    pub fn split_arrived(self, arrived: &'a [u8], before: Before, ended: bool) -> Records<'a> {
        Records {
            form: self,
            rest: arrived,
            before,
            ended,
        }
    }

    /// Writes a record by way of the output's buffer. Handed to the system straight from a mapped file that was cut, it would be taken
    /// for an output that can't be written.
    pub fn write(self, record: &[u8], out: &mut dyn Write) -> io::Result<()> {
        if let Form::Prefixed(form) = self {
            write_length(form, record.len() as u64, out)?;
        }
        let mut pieces = record.chunks(PIECE);
        pieces.try_for_each(|piece| out.write_all(piece))?;
        match self {
            Form::Terminated(terminator) => out.write_all(terminator),
            Form::Prefixed(_) => Ok(()),
        }
    }

    /// How many times as long as an archive of its records an input can be, at most: beside each record it has so many bytes where the
    /// archive has one or more.
    pub fn most_times(self) -> u64 {
        match self {
            Form::Terminated(terminator) => terminator.len() as u64,
            Form::Prefixed(Length::U64le) => 8,
            Form::Prefixed(Length::Uleb128) => 1,
        }
    }

    /// What a person calls a record.
    pub fn noun(self) -> &'static str {
        match self {
            Form::Terminated(b"\n") => "line",
            _ => "record",
        }
    }

    fn take(self, rest: &mut &'a [u8]) -> Result<&'a [u8], Fault> {
        match self {
            Form::Terminated(terminator) => Ok(take_terminated(terminator, rest)),
            Form::Prefixed(form) => {
                take_length(form, rest).and_then(|length| take_bytes(length, rest))
            }
        }
    }
}

fn write_length(form: Length, length: u64, out: &mut dyn Write) -> io::Result<()> {
    match form {
        Length::U64le => out.write_all(&length.to_le_bytes()),
        Length::Uleb128 => {
            let mut rest = length;
            while rest >= 0x80 {
                out.write_all(&[(rest % 0x80) as u8 | 0x80])?;
                rest /= 0x80;
            }
            out.write_all(&[rest as u8])
        }
    }
}

/// How many records and bytes of an input stand before a place.
#[derive(Clone, Copy, Default)]
pub struct Before {
    pub records: u64,
    pub bytes: u64,
}

/// The records of an input; the last item says what is wrong, where something is.
pub struct Records<'a> {
    form: Form<'a>,
    rest: &'a [u8],
    before: Before,
    ended: bool,
}

impl Records<'_> {
    /// What stands before the records that are left.
    pub fn before(&self) -> Before {
        self.before
    }
}

impl<'a> Iterator for Records<'a> {
    type Item = Result<&'a [u8], Flaw>;

    fn next(&mut self) -> Option<Self::Item> {
        if self.rest.is_empty() {
            return None;
        }
        let (mut rest, before) = (self.rest, self.before);
        let taken = self.form.take(&mut rest);
        if !self.ended && may_go_on(&taken, self.rest.len() - rest.len()) {
            return None;
        }
        self.before.records += 1;
        self.before.bytes += (self.rest.len() - rest.len()) as u64;
        self.rest = if taken.is_ok() { rest } else { &[] };
        Some(taken.map_err(|fault| Flaw { before, fault }))
    }
}

/// Whether it depends on what follows what the first record is. Of one that is whole more is taken than itself: its length or its terminator.
fn may_go_on(taken: &Result<&[u8], Fault>, length: usize) -> bool {
    match taken {
        Ok(record) => record.len() == length,
        Err(Fault::LengthCut | Fault::RecordCut(..)) => true,
        Err(Fault::LengthWide | Fault::LengthPadded) => false,
    }
}

/// The first record of an input that can't be made out.
pub struct Flaw {
    before: Before,
    fault: Fault,
}

/// Why a record can't be made out.
enum Fault {
    /// The input ends within the length.
    LengthCut,
    /// The length takes more bytes than a number may.
    LengthWide,
    /// The length could be written with fewer bytes.
    LengthPadded,
    /// The length, and how many bytes there are instead.
    RecordCut(u64, u64),
}

impl fmt::Display for Flaw {
    fn fmt(&self, out: &mut fmt::Formatter) -> fmt::Result {
        let Before { records, bytes } = self.before;
        let bytes = format_count(bytes, "byte", "bytes");
        write!(out, "record {}, after {bytes}: ", records + 1)?;
        match self.fault {
            Fault::LengthCut => write!(out, "its length is cut off by the end of the input"),
            Fault::LengthWide => write!(out, "its length takes more than nine bytes"),
            Fault::LengthPadded => write!(out, "its length isn't written in its shortest form"),
            Fault::RecordCut(length, left) => {
                let left = format_count(left, "byte", "bytes");
                write!(out, "its length is {length}, with {left} left")
            }
        }
    }
}

/// Takes what stands before the next terminator, or everything where there is none.
fn take_terminated<'a>(terminator: &[u8], rest: &mut &'a [u8]) -> &'a [u8] {
    let bytes = *rest;
    let end = find(terminator, bytes).unwrap_or(bytes.len());
    let after = bytes.len().min(end + terminator.len());
    *rest = &bytes[after..];
    &bytes[..end]
}

/// The first place where `wanted` stands.
fn find(wanted: &[u8], bytes: &[u8]) -> Option<usize> {
    let first = wanted.first()?;
    let mut from = 0;
    while let Some(found) = bytes[from..].iter().position(|byte| byte == first) {
        from += found;
        if bytes[from..].starts_with(wanted) {
            return Some(from);
        }
        from += 1;
    }
    None
}

fn take_length(form: Length, rest: &mut &[u8]) -> Result<u64, Fault> {
    match form {
        Length::Uleb128 => take_shortest(rest),
        Length::U64le => {
            let eight = rest.get(..8).and_then(|eight| eight.try_into().ok());
            let length = eight.map(u64::from_le_bytes).ok_or(Fault::LengthCut)?;
            *rest = &rest[8..];
            Ok(length)
        }
    }
}

fn take_shortest(rest: &mut &[u8]) -> Result<u64, Fault> {
    let bytes = *rest;
    let number = take_number(rest).ok_or(if bytes.len() < WIDEST {
        Fault::LengthCut
    } else {
        Fault::LengthWide
    })?;
    match bytes[..bytes.len() - rest.len()] {
        [_, .., 0] => Err(Fault::LengthPadded),
        _ => Ok(number),
    }
}

fn take_bytes<'a>(length: u64, rest: &mut &'a [u8]) -> Result<&'a [u8], Fault> {
    let bytes = *rest;
    let end = usize::try_from(length)
        .ok()
        .filter(|end| *end <= bytes.len());
    let end = end.ok_or(Fault::RecordCut(length, bytes.len() as u64))?;
    *rest = &bytes[end..];
    Ok(&bytes[..end])
}
