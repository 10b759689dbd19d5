//! `zs dump`: the records asked for.

use std::io::{self, Write};

use crate::answers::{count, read, search, Answer, Finding};
use crate::archive::Archive;
use crate::arguments::Dump;
use crate::failure::Failure;
use crate::output::Output;
use crate::progress::show_while;
use crate::records::Form;

/// Writes nothing before the whole answer is known.
pub fn run(asked: &Dump) -> Result<(), Failure> {
    let output = Output::find(asked.output.as_deref())?;
    output.refuse_archive(&asked.file)?;
    let archive = Archive::open(&asked.file, &asked.trust)?;
    let (file, known) = (archive.bytes(), archive.known);
    let (query, limit) = (asked.selection.query(), asked.max_results);
    let find: Finding = if asked.scan { read } else { search };
    if asked.count {
        let number = show_while("counting", &asked.file, file.len(), || {
            count(find, file, &query, known, limit)
        })?;
        archive.qualify_answer(&asked.file);
        return output.write(&|out| writeln!(out, "{number}"));
    }
    let answer = show_while("reading", &asked.file, file.len(), || {
        find(file, &query, known, limit)
    })?;
    archive.qualify_answer(&asked.file);
    let form = asked.separation.form();
    output.write(&|out| write_records(form, file, &answer, out))
}

/// Writes each record, which is a part of the file.
fn write_records(form: Form, file: &[u8], answer: &Answer, out: &mut dyn Write) -> io::Result<()> {
    let mut matches = answer.matches();
    matches.try_for_each(|part| form.write(zs_library::bytes(file, part.offset, part.length), out))
}
