//! The metadata rule by an outside parser, serde_json, with what its grammar doesn't ask for.

use serde::de::IgnoredAny;

/// Whether serde_json takes a text without building anything of it, which is the grammar of RFC 8259 alone.
pub fn is_json(text: &[u8]) -> bool {
    serde_json::from_slice::<IgnoredAny>(text).is_ok()
}

/// Whether a text keeps the metadata rule: the grammar, and the three things that [`is_json`] doesn't ask for.
pub fn is_metadata(text: &[u8]) -> bool {
    is_json(text) && has_braces(text) && is_utf8(text) && is_shallow(text)
}

/// Nothing stands outside the braces of an object.
pub fn has_braces(text: &[u8]) -> bool {
    text.starts_with(b"{") && text.ends_with(b"}")
}

pub fn is_utf8(text: &[u8]) -> bool {
    std::str::from_utf8(text).is_ok()
}

/// Whether the brackets of a JSON text, those in strings aside, are open at most 64 at once.
pub fn is_shallow(text: &[u8]) -> bool {
    let (mut open, mut deepest) = (0_usize, 0);
    let mut bytes = text.iter();
    let mut in_string = false;
    while let Some(byte) = bytes.next() {
        match (in_string, byte) {
            (_, b'"') => in_string = !in_string,
            (true, b'\\') => {
                bytes.next();
            }
            (false, b'{' | b'[') => open += 1,
            (false, b'}' | b']') => open -= 1,
            _ => {}
        }
        deepest = deepest.max(open);
    }
    deepest <= 64
}
