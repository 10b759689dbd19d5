//! What the proved writer is given, and the file that it makes.

use zs_library::{write, Counts, Written};
use zs_reference::maker::encode;

/// The metadata of every archive here.
pub const METADATA: &str = r#"{"about": "invented sample contacts"}"#;

/// Records in the form that the writer takes: one after the other, each a length (uleb128) and as many bytes.
pub struct Input {
    /// All of them.
    pub bytes: Vec<u8>,
}

impl Input {
    /// The input of these records.
    pub fn new<R: AsRef<[u8]>>(records: &[R]) -> Self {
        let mut bytes = Vec::new();
        for record in records.iter().map(AsRef::as_ref) {
            bytes.extend(encode(record.len() as u64));
            bytes.extend(record);
        }
        Input { bytes }
    }

    /// Writes the file into `output`, which the call clears first.
    pub fn write(&self, counts: Counts, output: &mut [u8]) -> Written {
        write(METADATA.as_bytes(), &self.bytes, counts, output)
    }

    /// The file. There is room for twice the input, which is ample for eight records to a block and more, and for long ones in blocks of
    /// their own.
    pub fn file(&self, counts: Counts) -> Vec<u8> {
        let mut output = vec![0; 2 * self.bytes.len() + 4096];
        let written = self.write(counts, &mut output);
        assert_eq!((written.number, written.place), (0, 0));
        output.truncate(written.length as usize);
        output
    }
}
