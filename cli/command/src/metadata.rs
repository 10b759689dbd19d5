//! Metadata that the library refuses: what a person can do something about, for display. That they are refused is the library's verdict.

use crate::escapes::quote;
use crate::output::format_count;

const INSIDE: &str = "what stands between the braces isn't JSON, or is nested too deep; \
     often a name or a text lacks its double quotes, or a comma stands before } or ]";

/// Says what is wrong with metadata that are refused, without taking them apart.
pub fn describe_fault(metadata: &[u8]) -> String {
    let text = match std::str::from_utf8(metadata) {
        Ok(text) => text,
        Err(fault) => return describe_wrong_byte(metadata, fault.valid_up_to()),
    };
    match (text.chars().next(), text.chars().next_back()) {
        (Some('{'), Some('}')) => INSIDE.into(),
        (Some(first), Some(last)) => {
            let (first, last) = (describe_letter(first), describe_letter(last));
            format!("it begins with {first} and ends with {last}")
        }
        _ => "it is empty".into(),
    }
}

fn describe_wrong_byte(metadata: &[u8], offset: usize) -> String {
    let before = format_count(offset as u64, "byte", "bytes");
    let wrong = quote(&metadata[offset..=offset]);
    format!("it isn't UTF-8: after {before} comes {wrong}")
}

/// Gives a character in quotes, and its name where it is easily overlooked.
fn describe_letter(letter: char) -> String {
    let quoted = quote(letter.to_string().as_bytes());
    match letter {
        '\u{feff}' => format!("the byte order mark {quoted}"),
        _ if letter.is_whitespace() => format!("the white space {quoted}"),
        _ => quoted,
    }
}
