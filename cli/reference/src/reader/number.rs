//! Numbers outside the header: uleb128 in its shortest form, at most nine bytes.

/// Why no number can be read.
#[derive(Debug, Clone, Copy, PartialEq, Eq)]
pub enum NumberFault {
    /// The part ends before the number does.
    CutOff,
    /// Nine bytes from 80 hex up in a row (refusal 11).
    TooWide,
    /// More than one byte, the last one 00 (refusal 12).
    NotShortest,
}

/// This many bytes from 80 hex up in a row are too many.
const TOO_MANY: usize = 9;

/// The number at the beginning of `part`, and how many bytes it takes.
///
/// # Errors
/// Says why where there is none.
pub fn number(part: &[u8]) -> Result<(u64, usize), NumberFault> {
    let window = part.get(..TOO_MANY).unwrap_or(part);
    let last_at = match window.iter().position(|byte| *byte < 0x80) {
        Some(position) => position,
        None if window.len() == TOO_MANY => return Err(NumberFault::TooWide),
        None => return Err(NumberFault::CutOff),
    };
    let digits = &window[..=last_at];
    if last_at > 0 && digits.last() == Some(&0) {
        return Err(NumberFault::NotShortest);
    }
    // At most nine digits of seven bits: the value stays below 2^63.
    let value = digits
        .iter()
        .rev()
        .fold(0, |sum, digit| sum * 128 + u64::from(digit % 128));
    Ok((value, digits.len()))
}
