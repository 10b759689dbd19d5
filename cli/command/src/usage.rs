//! Help, version, and mistakes in the arguments.

use std::io::{self, Write};

use clap::error::{ContextKind, ContextValue};

use crate::escapes::hide_controls;
use crate::failure::{Failure, Status};
use crate::output;

/// What to do where a file's name looks like an option.
const DASHES: &str = "A file whose name begins with a dash is given as ./-NAME";

/// Shows help, version, or a mistake. The first two are answers.
pub fn show(mut help_or_mistake: clap::Error) -> Result<Status, Failure> {
    if help_or_mistake.use_stderr() {
        correct_hint(&mut help_or_mistake);
        show_mistake(&help_or_mistake);
        return Ok(Status::Trouble);
    }
    output::print(&help_or_mistake.to_string())?;
    Ok(Status::Answered)
}

/// Where an option is unknown, clap proposes to put it after `--`. For the value of an option that is no help.
fn correct_hint(mistake: &mut clap::Error) {
    let is_option = |given: &ContextValue| given.to_string().starts_with('-');
    let given = mistake.get(ContextKind::InvalidArg);
    if given.map_or(false, is_option) && mistake.get(ContextKind::Suggested).is_some() {
        let hint = ContextValue::StyledStrs(vec![DASHES.into()]);
        mistake.insert(ContextKind::Suggested, hint);
    }
}

/// Puts a mistake on standard error. What was given can't forge a line there.
fn show_mistake(mistake: &clap::Error) {
    let plain = mistake.to_string();
    let mut text = plain.clone();
    for (_, value) in mistake.context() {
        match value {
            ContextValue::String(given) if given.contains('\n') => {
                text = text.replace(given, &hide_controls(given));
            }
            _ => {}
        }
    }
    let lines: Vec<String> = text.split('\n').map(hide_controls).collect();
    let text = lines.join("\n");
    // On a terminal clap colours what it prints. Where standard error can't be written, the exit status is all there is.
    let _ = if text == plain {
        mistake.print()
    } else {
        io::stderr().write_all(text.as_bytes())
    };
}
