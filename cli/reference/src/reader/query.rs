//! Queries: which records match, and which bounds can hold a match.

/// A query. An empty start or prefix asks nothing of a record.
#[derive(Debug, Clone, Default, PartialEq, Eq)]
pub struct Query {
    /// A match is at least this.
    pub start: Vec<u8>,
    /// Where given, a match is less than this.
    pub stop: Option<Vec<u8>>,
    /// A match begins with this.
    pub prefix: Vec<u8>,
}

impl Query {
    /// Whether a record matches.
    pub fn matches(&self, record: &[u8]) -> bool {
        let stopped = match &self.stop {
            Some(stop) => stop.as_slice() <= record,
            None => false,
        };
        self.start.as_slice() <= record && !stopped && record.starts_with(&self.prefix)
    }
}

/// Whether any byte string, of any length, lies between the bounds and matches the query.
///
/// The byte strings that begin with a prefix are those from the prefix up to, not including,
/// the prefix's end. So each condition is a lower or an upper limit, and some string meets
/// them all exactly if the greatest lower limit meets every upper one.
pub fn may_hold_match(lower: &[u8], upper: Option<&[u8]>, query: &Query) -> bool {
    let least = lower.max(&query.start).max(&query.prefix);
    let end = end_of_prefix(&query.prefix);
    let below = |limit: &Option<Vec<u8>>| match limit {
        Some(limit) => least < limit.as_slice(),
        None => true,
    };
    upper.map_or(true, |upper| least <= upper) && below(&query.stop) && below(&end)
}

/// The least byte string above all that begin with `prefix`, if there is one.
///
/// It is the prefix without its last bytes FF, the byte before them raised by one.
fn end_of_prefix(prefix: &[u8]) -> Option<Vec<u8>> {
    let raised = prefix.iter().rposition(|byte| *byte != 0xff)?;
    let mut end = prefix.get(..=raised)?.to_vec();
    let last = end.last_mut()?;
    *last = last.checked_add(1)?;
    Some(end)
}

#[cfg(test)]
mod tests {
    use super::*;

    #[test]
    fn ends_of_prefixes() {
        assert_eq!(end_of_prefix(&[0x61, 0xff]), Some(vec![0x62]));
        assert_eq!(end_of_prefix(&[0xff, 0xff]), None);
        assert_eq!(end_of_prefix(&[]), None);
        assert_eq!(end_of_prefix(&[0x61, 0x00]), Some(vec![0x61, 0x01]));
    }
}
