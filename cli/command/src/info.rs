//! `zs info`: what a file is, as JSON.

use std::io::{self, Write};

use crate::answers::Contents;
use crate::archive::read_and_check;
use crate::arguments::Info;
use crate::escapes::{escape, escape_name};
use crate::failure::Failure;
use crate::layout::{block, header, Header};
use crate::output;
use crate::terminal::{is_terminal, write_json_visibly};

/// Checks the file first, so that what is shown is true of it.
pub fn run(asked: &Info) -> Result<(), Failure> {
    let (input, contents) = read_and_check(&asked.file)?;
    let file = input.bytes();
    let unreadable = || {
        let name = escape_name(&asked.file);
        Failure::Trouble(format!("{name}: the header can't be shown"))
    };
    let header = header(file).ok_or_else(unreadable)?;
    let root_level = block(file, header.root_offset).map_or(0, |root| root.level);
    output::write(&asked.file, &|out| {
        if asked.metadata_only {
            write_metadata(header.metadata, out)?;
            writeln!(out)
        } else {
            write_fields(&header, root_level, &contents, out)
        }
    })
}

/// Writes the metadata, which are JSON, as they are stored, unless a person reads them.
fn write_metadata(metadata: &str, out: &mut dyn Write) -> io::Result<()> {
    if is_terminal() {
        write_json_visibly(out, metadata)
    } else {
        out.write_all(metadata.as_bytes())
    }
}

fn write_fields(
    header: &Header,
    root_level: u8,
    contents: &Contents,
    out: &mut dyn Write,
) -> io::Result<()> {
    let Contents { blocks, records } = contents;
    writeln!(out, "{{")?;
    for (name, number) in [
        ("header_length", header.length),
        ("root_index_offset", header.root_offset),
        ("root_index_length", header.root_length),
        ("total_file_length", header.total_length),
    ] {
        writeln!(out, "  \"{name}\": {number},")?;
    }
    let hash: String = header.hash.iter().map(|b| format!("{b:02x}")).collect();
    writeln!(out, "  \"data_sha256\": \"{hash}\",")?;
    // The check takes one codec only, which is printable.
    writeln!(out, "  \"codec\": \"{}\",", escape(header.codec))?;
    let length = header.metadata.len();
    writeln!(out, "  \"metadata_length\": {length},")?;
    write!(out, "  \"metadata\": ")?;
    write_metadata(header.metadata, out)?;
    writeln!(out, ",\n  \"statistics\": {{")?;
    writeln!(out, "    \"root_index_level\": {root_level},")?;
    writeln!(out, "    \"blocks\": {blocks},")?;
    writeln!(out, "    \"records\": {records}\n  }}\n}}")
}
