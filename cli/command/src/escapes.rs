//! Bytes in arguments and in lines for people: `\t`, `\n`, `\r`, `\\` and `\x` with two hex digits; every other byte is itself.

use std::borrow::Cow;
use std::ffi::OsString;
use std::fmt;
use std::os::unix::ffi::{OsStrExt, OsStringExt};
use std::path::Path;

/// Longer byte strings are cut for display.
const LONGEST_QUOTE: usize = 40;
/// About so many bytes are shown at a time.
const LONGEST_PIECE: usize = 1 << 12;

/// Bytes as an argument gives them, its escapes resolved.
#[derive(Clone, Debug, Default, PartialEq, Eq)]
pub struct Bytes(pub Vec<u8>);

/// An escape that can't be resolved.
#[derive(Clone, Debug, PartialEq, Eq)]
pub enum EscapeFault {
    /// A backslash before a character that makes no escape with it.
    Unknown(String),
    /// `\x` without two hex digits after it.
    Digits(String),
    /// A backslash with nothing after it.
    Cut,
}

impl fmt::Display for EscapeFault {
    fn fmt(&self, out: &mut fmt::Formatter) -> fmt::Result {
        match self {
            EscapeFault::Unknown(escape) => {
                write!(out, "unknown escape {escape}; known are \\t \\n \\r \\\\ and \\x with two hex digits")
            }
            EscapeFault::Digits(escape) => {
                write!(out, "\\x needs two hex digits (here: {escape})")
            }
            EscapeFault::Cut => {
                write!(out, "a backslash at the end; write \\\\ for a backslash")
            }
        }
    }
}

impl std::error::Error for EscapeFault {}

/// Gives the bytes that an argument stands for.
pub fn resolve(argument: OsString) -> Result<Bytes, EscapeFault> {
    let written = argument.into_vec();
    let mut bytes = Vec::with_capacity(written.len());
    let mut rest = written.as_slice();
    while let [first, after @ ..] = rest {
        let (byte, left) = match first {
            b'\\' => take_escape(after)?,
            other => (*other, after),
        };
        bytes.push(byte);
        rest = left;
    }
    Ok(Bytes(bytes))
}

/// Gives the byte that a backslash and what follows it stand for, and the rest.
fn take_escape(after: &[u8]) -> Result<(u8, &[u8]), EscapeFault> {
    match after {
        [b't', left @ ..] => Ok((b'\t', left)),
        [b'n', left @ ..] => Ok((b'\n', left)),
        [b'r', left @ ..] => Ok((b'\r', left)),
        [b'\\', left @ ..] => Ok((b'\\', left)),
        [b'x', digits @ ..] => take_hex(digits).ok_or_else(|| {
            let longest = after.len().min(3);
            EscapeFault::Digits(show_escape(&after[..longest]))
        }),
        [] => Err(EscapeFault::Cut),
        [other, ..] => Err(EscapeFault::Unknown(show_escape(&[*other]))),
    }
}

/// Gives the byte that two hex digits stand for, and the rest.
fn take_hex(digits: &[u8]) -> Option<(u8, &[u8])> {
    match digits {
        [high, low, left @ ..] => Some((digit(*high)? * 16 + digit(*low)?, left)),
        _ => None,
    }
}

/// Gives a backslash and what follows it for a message.
fn show_escape(escape: &[u8]) -> String {
    format!("\\{}", hide_controls(&String::from_utf8_lossy(escape)))
}

/// The value of a hex digit.
fn digit(letter: u8) -> Option<u8> {
    match letter {
        b'0'..=b'9' => Some(letter - b'0'),
        b'a'..=b'f' => Some(letter - b'a' + 10),
        b'A'..=b'F' => Some(letter - b'A' + 10),
        _ => None,
    }
}

/// Gives bytes as printable ASCII, in the form that [`resolve`] takes back.
pub fn escape(bytes: &[u8]) -> String {
    let mut text = String::with_capacity(bytes.len());
    for byte in bytes {
        match byte {
            b'\t' => text.push_str("\\t"),
            b'\n' => text.push_str("\\n"),
            b'\r' => text.push_str("\\r"),
            b'\\' => text.push_str("\\\\"),
            b'"' => text.push_str("\\x22"),
            b' '..=b'~' => text.push(char::from(*byte)),
            other => {
                let digit = |value: u8| char::from_digit(u32::from(value), 16).unwrap_or('0');
                text.extend(['\\', 'x', digit(other / 16), digit(other % 16)]);
            }
        }
    }
    text
}

/// Gives bytes in quotes, with escapes. What is long is cut, and two dots say so.
pub fn quote(bytes: &[u8]) -> String {
    match bytes.get(..LONGEST_QUOTE) {
        Some(beginning) if bytes.len() > LONGEST_QUOTE => format!("\"{}\"..", escape(beginning)),
        _ => format!("\"{}\"", escape(bytes)),
    }
}

/// Gives a file's name on one line, as [`printable_pieces`] does. In a line that goes on after the name, it ends at the first colon that a
/// space follows.
pub fn escape_name(name: &Path) -> String {
    let text: String = printable_pieces(name.as_os_str().as_bytes()).collect();
    text.replace(": ", "\\x3a ")
}

/// Gives bytes on one line, piece by piece: printable characters as they are, save the backslash, and every other byte as an escape.
pub fn printable_pieces(bytes: &[u8]) -> impl Iterator<Item = Cow<'_, str>> {
    let mut rest = bytes;
    std::iter::from_fn(move || {
        let is_shown = printable_length(rest) > 0;
        let (piece, after) = rest.split_at(piece_length(rest, is_shown));
        rest = after;
        match std::str::from_utf8(piece) {
            Ok("") => None,
            Ok(text) if is_shown => Some(Cow::Borrowed(text)),
            _ => Some(Cow::Owned(escape(piece))),
        }
    })
}

/// How many bytes at the front are all shown as they are, or all as escapes.
fn piece_length(bytes: &[u8], is_shown: bool) -> usize {
    let mut length = 0;
    while length < bytes.len().min(LONGEST_PIECE) {
        let next = printable_length(&bytes[length..]);
        if (next > 0) != is_shown {
            break;
        }
        length += next.max(1);
    }
    length
}

/// The length of the character at the front, if it is shown as it is, and otherwise 0.
fn printable_length(bytes: &[u8]) -> usize {
    match bytes.first() {
        None | Some(b'\\') => 0,
        Some(byte) if byte.is_ascii() => usize::from(matches!(byte, b' '..=b'~')),
        Some(_) => first_character(bytes)
            .filter(|letter| is_printable(*letter))
            .map_or(0, char::len_utf8),
    }
}

/// Gives a text on one line, and no character that a terminal obeys. A backslash stays, so this doesn't say what the text was.
pub fn hide_controls(text: &str) -> String {
    let mut line = String::with_capacity(text.len());
    for letter in text.chars() {
        if is_printable(letter) {
            line.push(letter);
        } else {
            line.push_str(&escape(letter.to_string().as_bytes()));
        }
    }
    line
}

/// The first character of a text in UTF-8.
fn first_character(bytes: &[u8]) -> Option<char> {
    let longest = &bytes[..bytes.len().min(4)];
    let valid = match std::str::from_utf8(longest) {
        Ok(_) => longest.len(),
        Err(fault) => fault.valid_up_to(),
    };
    std::str::from_utf8(&longest[..valid]).ok()?.chars().next()
}

/// Whether a character is seen, and leaves those around it where they are: no control character, no line end, no change of direction.
fn is_printable(letter: char) -> bool {
    if letter.is_ascii() {
        return letter.is_ascii_graphic() || letter == ' ';
    }
    // Rust's own rule for debugging output. After another letter, marks that combine with it count as printable.
    let mut text = *b"x0000";
    let length = 1 + letter.encode_utf8(&mut text[1..]).len();
    let text = std::str::from_utf8(&text[..length]);
    text.map_or(false, |text| text.escape_debug().count() == 2)
}

#[cfg(test)]
mod tests {
    use super::*;
    use std::ffi::OsStr;

    fn of(text: &str) -> Result<Vec<u8>, EscapeFault> {
        resolve(OsString::from(text)).map(|bytes| bytes.0)
    }

    #[test]
    fn known_escapes() {
        assert_eq!(of(r"a\tb\n\r\\").as_deref(), Ok(&b"a\tb\n\r\\"[..]));
        assert_eq!(of(r"\x00\xfF\x7e").as_deref(), Ok(&b"\x00\xff\x7e"[..]));
        assert_eq!(of(r"\\x41").as_deref(), Ok(&br"\x41"[..]));
        assert_eq!(of("é").as_deref(), Ok("é".as_bytes()));
        assert_eq!(of("").as_deref(), Ok(&b""[..]));
    }

    #[test]
    fn unknown_and_cut_escapes() {
        assert_eq!(of(r"\q"), Err(EscapeFault::Unknown(r"\q".into())));
        assert_eq!(of("\\\n"), Err(EscapeFault::Unknown(r"\\n".into())));
        for short in [r"\xg0", r"\x", r"\x4", r"\x4\"] {
            assert_eq!(of(short), Err(EscapeFault::Digits(short.into())));
        }
        assert_eq!(of("\\x\n"), Err(EscapeFault::Digits(r"\x\n".into())));
        for cut in [r"\", r"\\\"] {
            assert_eq!(of(cut), Err(EscapeFault::Cut), "{cut}");
        }
    }

    #[test]
    fn what_is_shown_can_be_given_back() {
        let every_byte: Vec<u8> = (0..=255).collect();
        assert_eq!(of(&escape(&every_byte)), Ok(every_byte.clone()));
        for letter in "é\u{85}e\u{301}\u{202e}文\u{feff}: :\\".chars() {
            let mut bytes = every_byte.clone();
            bytes.extend(letter.to_string().bytes());
            bytes.extend(&every_byte);
            let shown: String = printable_pieces(&bytes).collect();
            assert_eq!(of(&shown).as_ref(), Ok(&bytes));
            let name = escape_name(Path::new(OsStr::from_bytes(&bytes)));
            assert_eq!(of(&name), Ok(bytes));
        }
    }

    #[test]
    fn names_are_seen_as_they_are_or_as_escapes() {
        for (name, shown) in [
            ("a b.zs", "a b.zs"),
            ("é \"文\" e\u{301}", "é \"文\" e\u{301}"),
            ("a\nb\t\r\u{1b}[2K\u{7f}", r"a\nb\t\r\x1b[2K\x7f"),
            ("\u{85}\u{202e}", r"\xc2\x85\xe2\x80\xae"),
            (r"a\n", r"a\\n"),
            ("a: b:c:", r"a\x3a b:c:"),
        ] {
            assert_eq!(escape_name(Path::new(name)), shown);
        }
        let latin_1 = OsStr::from_bytes(b"caf\xe9\xff.zs");
        assert_eq!(escape_name(Path::new(latin_1)), r"caf\xe9\xff.zs");
    }

    #[test]
    fn pieces_are_whole_characters_or_escapes() {
        let long = [&[0xff; LONGEST_PIECE + 1][..], "aé\\\té".as_bytes()].concat();
        let pieces: Vec<Cow<str>> = printable_pieces(&long).collect();
        let full = r"\xff".repeat(LONGEST_PIECE);
        assert_eq!(pieces, [&full, r"\xff", "aé", r"\\\t", "é"]);
        assert_eq!(
            printable_pieces(b"a \"b\"~").collect::<String>(),
            "a \"b\"~"
        );
        assert_eq!(printable_pieces(b"").count(), 0);
    }

    #[test]
    fn controls_are_hidden() {
        assert_eq!(hide_controls("a\\\nb\u{1b}[é"), "a\\\\nb\\x1b[é");
    }
}
