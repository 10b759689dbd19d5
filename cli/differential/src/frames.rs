//! The blocks of a file, as far as their frames lead.

use std::ops::Range;

use zs_reference::reader::number;

/// 24+H, where that many bytes are there.
pub fn header_end(file: &[u8]) -> Option<usize> {
    let length = u64::from_le_bytes(file.get(8..16)?.try_into().ok()?);
    let end = usize::try_from(length).ok()?.checked_add(24)?;
    (80 + 24 <= end && end <= file.len()).then_some(end)
}

/// The L bytes of each block from this offset on.
pub fn frames(file: &[u8], at: usize) -> Vec<Range<usize>> {
    let after = |covered: &Range<usize>| frame(file, covered.end + 8);
    std::iter::successors(frame(file, at), after).collect()
}

/// The L bytes of the block that begins there.
fn frame(file: &[u8], at: usize) -> Option<Range<usize>> {
    let (length, digits) = number(file.get(at..)?).ok()?;
    let start = at + digits;
    let end = start.checked_add(usize::try_from(length).ok()?)?;
    let inside = length > 0 && end.checked_add(8)? <= file.len();
    inside.then_some(start..end)
}

/// The payloads of the data blocks among these.
pub fn data_payloads<'a>(
    file: &'a [u8],
    frames: &'a [Range<usize>],
) -> impl Iterator<Item = &'a [u8]> {
    let covered = frames.iter().map(move |covered| &file[covered.clone()]);
    covered
        .filter(|covered| covered[0] == 0)
        .map(|covered| &covered[1..])
}
