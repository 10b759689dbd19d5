//! Text of a file on a terminal: control characters are shown as escapes, so that no file steers the terminal.

use std::io::{self, Write};

/// Whether standard output is a terminal.
pub fn is_terminal() -> bool {
    console::user_attended()
}

/// Writes a JSON text of the same meaning without control characters save tab and line end. Others stand in strings, where they can be
/// escaped; a carriage return stands between values, as a space.
pub fn write_json_visibly(out: &mut dyn Write, json: &str) -> io::Result<()> {
    for letter in json.chars() {
        match letter {
            '\r' => out.write_all(b" ")?,
            letter if steers(letter) => write!(out, "\\u{:04x}", u32::from(letter))?,
            letter => write!(out, "{letter}")?,
        }
    }
    Ok(())
}

fn steers(letter: char) -> bool {
    letter.is_control() && letter != '\t' && letter != '\n'
}

#[cfg(test)]
mod tests {
    use super::*;

    #[test]
    fn json_keeps_its_meaning() {
        let mut out = Vec::new();
        write_json_visibly(&mut out, "{\r\n\"\u{85}\u{e9}\\n\":1}").expect("a text");
        assert_eq!(out, "{ \n\"\\u0085\u{e9}\\n\":1}".as_bytes());
    }
}
