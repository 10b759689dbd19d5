//! Records of SIM phonebooks.

/// A record: bytes of a name in a field of so many bytes, which is filled up with FF, and the 14 bytes after the field. More bytes than the
/// field has are left out.
pub fn adn(name: &[u8], field: usize, rest: [u8; 14]) -> Vec<u8> {
    let mut record = name.to_vec();
    record.resize(field, 0xff);
    record.extend(rest);
    record
}
