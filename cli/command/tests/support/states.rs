//! The stores of an archive as they are asked for, the ways to have it written, and what both readers say of a file that a cut leaves.

use std::fs;

use zs_reference::reader;

use super::faults::{zs_noted, Done, Fault};
use super::Folder;

const MAGIC: &[u8; 8] = b"\xabZSfiLe\x01";
const UNFINISHED: &[u8; 8] = b"\xabZStoBe\x01";

/// An offset and bytes.
pub type Store = (u64, Vec<u8>);

/// The four stores of a finished file: unfinished magic first, all blocks, the header from byte 8 through its CRC, good magic last.
pub fn due_stores(file: &[u8]) -> Vec<Store> {
    let length = u64::from_le_bytes(file[8..16].try_into().expect("eight bytes"));
    // Magic, the length itself, as many bytes, and the CRC.
    let blocks = 8 + 8 + length + 8;
    let (header, rest) = file.split_at(blocks as usize);
    vec![
        (0, UNFINISHED.to_vec()),
        (blocks, rest.to_vec()),
        (8, header[8..].to_vec()),
        (0, MAGIC.to_vec()),
    ]
}

/// The bytes that are written in all when each store begins, and at the end.
pub fn borders(file: &[u8]) -> Vec<u64> {
    let mut borders = vec![0];
    for (_, bytes) in due_stores(file) {
        borders.push(borders[borders.len() - 1] + bytes.len() as u64);
    }
    borders
}

/// Puts bytes at an offset of a file; bytes that are leapt over are zeros.
pub fn put(state: &mut Vec<u8>, offset: u64, bytes: &[u8]) {
    let (from, to) = (offset as usize, offset as usize + bytes.len());
    if bytes.is_empty() {
        return;
    }
    state.resize(state.len().max(to), 0);
    state[from..to].copy_from_slice(bytes);
}

/// Whether a file is the finished one. Otherwise both readers have to refuse it alike, with 2 or 3.
pub fn is_finished(state: &[u8], finished: &[u8]) -> bool {
    if state == finished {
        return true;
    }
    let (ours, others) = (zs_library::check(state, &mut []), reader::check(state, 0));
    let refused = (ours.number, ours.place);
    assert_eq!(refused, (others.number, others.place));
    assert!([(2, 0), (3, 0)].contains(&refused), "{refused:?}");
    false
}

/// A way to have an archive written: options, and whether an archive is there already.
#[derive(Clone, Copy, Debug)]
pub struct Way {
    pub options: &'static [&'static str],
    pub replaces: bool,
}

impl Way {
    pub fn is_in_place(&self) -> bool {
        self.options.contains(&"--in-place")
    }
}

pub const WAYS: [Way; 4] = [
    Way {
        options: &[],
        replaces: false,
    },
    Way {
        options: &["--force"],
        replaces: true,
    },
    Way {
        options: &["--in-place"],
        replaces: false,
    },
    Way {
        options: &["--in-place", "--force"],
        replaces: true,
    },
];

/// A list of records, and the archive that is made of it.
pub struct Case {
    inputs: Folder,
    pub finished: Vec<u8>,
    pub old: Vec<u8>,
}

impl Case {
    /// The records are lines. The archive that is there already is another one.
    pub fn new(records: &[u8]) -> Self {
        let inputs = Folder::new();
        inputs.write("input", records);
        let mut case = Case {
            inputs,
            finished: Vec::new(),
            old: Vec::new(),
        };
        case.finished = case.make("{\"about\": \"this\"}");
        case.old = case.make("{\"about\": \"that\"}");
        case
    }

    fn make(&self, metadata: &str) -> Vec<u8> {
        let input = self.inputs.name("input");
        let out = self.inputs.name("out");
        let run = super::zs(&["make", metadata, &input, &out, "--force"]);
        assert_eq!((run.status, run.err.as_str()), (0, ""));
        let file = fs::read(out).expect("the archive");
        let mut work = vec![0; file.len() / 11];
        assert_eq!(zs_library::check(&file, &mut work).number, 0);
        assert_eq!(reader::check(&file, file.len()).number, 0);
        file
    }

    /// A folder with nothing but the archive that is there already, if one is.
    pub fn folder(&self, way: Way) -> Folder {
        let folder = Folder::new();
        if way.replaces {
            folder.write("out", &self.old);
        }
        folder
    }

    /// What is asked of the command in such a folder.
    pub fn words(&self, way: Way) -> Vec<String> {
        let input = self.inputs.name("input");
        let words = ["make", "{\"about\": \"this\"}", &input, "out"];
        let words = words.iter().chain(way.options);
        words.map(|word| word.to_string()).collect()
    }

    /// What is done to files and folders where nothing fails.
    pub fn log(&self, way: Way) -> Vec<Done> {
        let folder = self.folder(way);
        let (run, log) = zs_noted(&self.words(way), &folder, Fault::Nothing);
        assert_eq!((run.status, run.err.as_str()), (0, ""), "{way:?}");
        assert_eq!(folder.files(), ["out"]);
        assert!(fs::read(folder.name("out")).expect("the archive") == self.finished);
        log
    }

    /// Whether the archive that was there is still. Every other file in the folder, under any name, has to be refused or the finished one,
    /// and under its own name only an archive that is written in place may be refused.
    pub fn keeps_old(&self, folder: &Folder, way: Way) -> bool {
        let mut keeps_old = false;
        for name in folder.files() {
            let state = fs::read(folder.name(&name)).expect("a file");
            if way.replaces && name == "out" && state == self.old {
                keeps_old = true;
            } else {
                let finished = is_finished(&state, &self.finished);
                assert!(finished || way.is_in_place() || name != "out", "{way:?}");
            }
        }
        keeps_old
    }
}
