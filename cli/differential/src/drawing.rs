//! Drawings: bytes and the calls on them, from a seed and a number.

use crate::call::{Call, Room};
use crate::calls::{draw_calls, draw_imports, draw_writes, Asked};
use crate::damage::{damage, repair, Repair};
use crate::dump_kinds;
use crate::dumps::draw_dump;
use crate::faults::{draw_faulty, NUMBERS};
use crate::hostile::draw_hostile;
use crate::inputs::draw_input;
use crate::keys::{keys, kinds, Kinds};
use crate::pair_calls::draw_on_pair;
use crate::pairs::{draw_pairs, Pair};
use crate::queries::strings_of;
use crate::scripts::draw_steps;
use crate::shapes::shape;
use crate::store_calls::{draw_cuts, draw_edge, draw_stores};
use zs_reference::corpus::encode_steps;
use zs_reference::maker::random::{bend, Random};
use zs_reference::maker::texts::{change, grow};
use zs_reference::maker::{edges, Image};
use zs_reference::reader::{check, number};
use zs_reference::sim::import;
use zs_reference::writer::write;

/// Of so many numbers the last one is for the recognisers of metadata.
const TURNS: u64 = 24;
/// The first are for the readers.
const READERS: u64 = 10;
/// The two after them are for the writers.
const WRITERS: u64 = 2;
/// Then these are for the imports.
const IMPORTS: u64 = 6;
/// Then these are for sessions, and the one after them is for bytes that may have stores.
const SESSIONS: u64 = 4;
/// Byte strings of one number that may have stores.
const EDGES: usize = 10;
/// Texts of one number.
const TEXTS: usize = 100;
/// How deep texts are nested: little mostly, and about as deep as metadata may be.
const DEPTHS: [usize; 14] = [1, 1, 1, 1, 2, 2, 2, 3, 3, 5, 20, 63, 64, 65];

/// Bytes and the calls on them.
#[derive(Debug, Clone)]
pub struct Drawing {
    /// The bytes of a file, of the first of two, or those that may have stores, the records that a writer is given, a dump, a text, or steps.
    pub bytes: Vec<u8>,
    /// The root's level, where the independent reader accepts the file; 0 for a dump that isn't refused, and for two files that aren't.
    pub accepted: Option<u8>,
    /// The calls.
    pub calls: Vec<Asked>,
    /// What the records of a writer are like where data blocks meet, if they are written.
    pub kinds: Kinds,
    /// What the records of a dump are like, if it is imported.
    pub dump_kinds: dump_kinds::Kinds,
    /// Gives the arbitrary bytes and numbers around and in what is lent.
    pub random: Random,
}

/// Makes the drawings of this number: a file and pairs with it, records and the file written, a dump, the steps of a session, bytes that may have
/// stores, or texts. The same seed and number give the same ones.
pub fn draw(seed: u64, number: u64) -> Vec<Drawing> {
    let mut random = Random::new(Random::new(seed ^ number.rotate_left(32)).next());
    let (round, turn) = (number / TURNS, number % TURNS);
    if turn < READERS {
        let (image, file) = draw_file(&mut random, round * READERS + turn);
        return with_pairs(on_file(random, file, &strings_of(&image)));
    }
    let turn = turn - READERS;
    if turn < WRITERS {
        return draw_written(random, round * WRITERS + turn);
    }
    let turn = turn - WRITERS;
    if turn < IMPORTS {
        return vec![draw_imported(random, round * IMPORTS + turn)];
    }
    let turn = turn - IMPORTS;
    if turn < SESSIONS {
        return vec![on_session(random)];
    }
    if turn == SESSIONS {
        return (0..EDGES).map(|_| on_edge(&mut random)).collect();
    }
    let texts: Vec<Vec<u8>> = (0..TEXTS).map(|_| draw_text(&mut random)).collect();
    on_texts(random, texts).collect()
}

/// The drawings that are the same with every seed: texts about the edges of what is metadata.
pub fn list_edges() -> impl Iterator<Item = Drawing> {
    on_texts(Random::new(0), edges())
}

/// Each text and the call on it.
fn on_texts(mut random: Random, texts: Vec<Vec<u8>>) -> impl Iterator<Item = Drawing> {
    texts.into_iter().map(move |text| Drawing {
        bytes: text,
        accepted: None,
        calls: vec![(Call::IsMetadata, Room::Any)],
        kinds: Kinds::default(),
        dump_kinds: dump_kinds::Kinds::default(),
        random: Random::new(random.next()),
    })
}

/// The steps of a session.
fn on_session(mut random: Random) -> Drawing {
    let steps = draw_steps(&mut random);
    Drawing {
        bytes: encode_steps(&steps),
        accepted: None,
        calls: vec![(Call::Session { steps }, Room::Any)],
        kinds: Kinds::default(),
        dump_kinds: dump_kinds::Kinds::default(),
        random,
    }
}

/// Bytes that may have stores, and the calls for some of these.
fn on_edge(random: &mut Random) -> Drawing {
    Drawing {
        bytes: draw_edge(random),
        accepted: None,
        calls: draw_stores(random, 3),
        kinds: Kinds::default(),
        dump_kinds: dump_kinds::Kinds::default(),
        random: Random::new(random.next()),
    }
}

/// Draws a text that is grown from the grammar, and then has at most two bytes changed.
fn draw_text(random: &mut Random) -> Vec<u8> {
    let depth = random.pick(&DEPTHS);
    let mut text = grow(random, depth);
    for _ in 0..random.pick(&[0, 0, 1, 1, 2]) {
        change(random, &mut text);
    }
    text
}

/// A file and the calls on it.
fn on_file(mut random: Random, file: Vec<u8>, strings: &[Vec<u8>]) -> Drawing {
    let calls = draw_calls(&mut random, &file, strings);
    Drawing {
        accepted: root_level(&file),
        bytes: file,
        calls,
        kinds: Kinds::default(),
        dump_kinds: dump_kinds::Kinds::default(),
        random,
    }
}

/// The drawing of a file, and those of pairs with it.
fn with_pairs(mut drawing: Drawing) -> Vec<Drawing> {
    let mut random = Random::new(drawing.random.next());
    let pairs = draw_pairs(&mut random, &drawing.bytes);
    let pairs = pairs.into_iter().map(|pair| on_pair(&mut random, pair));
    std::iter::once(drawing).chain(pairs).collect()
}

/// Two files and the calls on them.
fn on_pair(random: &mut Random, pair: Pair) -> Drawing {
    let (calls, are_accepted) = draw_on_pair(random, &pair);
    let [first, _] = pair;
    Drawing {
        bytes: first,
        accepted: are_accepted.then_some(0),
        calls,
        kinds: Kinds::default(),
        dump_kinds: dump_kinds::Kinds::default(),
        random: Random::new(random.next()),
    }
}

/// Records and the calls of the writer on them; then, where they are written, the file, with cuts of its stores too, and pairs with it.
fn draw_written(mut random: Random, turn: u64) -> Vec<Drawing> {
    let input = draw_input(&mut random, turn);
    let calls = draw_writes(&mut random, &input);
    let file = write(&input.metadata, &input.records, input.counts, usize::MAX);
    let file = file.map(|file| {
        let strings = [&input.strings[..], &keys(&input)].concat();
        let mut drawing = on_file(Random::new(random.next()), file, &strings);
        let cuts = draw_cuts(&mut drawing.random, &drawing.bytes);
        drawing.calls.extend(cuts);
        drawing
    });
    let records = Drawing {
        accepted: file.as_ref().ok().and_then(|drawing| drawing.accepted),
        calls,
        kinds: file.as_ref().map_or(Kinds::default(), |_| kinds(&input)),
        dump_kinds: dump_kinds::Kinds::default(),
        bytes: input.records,
        random,
    };
    let files = file.into_iter().flat_map(with_pairs);
    std::iter::once(records).chain(files).collect()
}

/// A dump and the calls of the import on it.
fn draw_imported(mut random: Random, turn: u64) -> Drawing {
    let dump = draw_dump(&mut random, turn);
    let imported = import(&dump.bytes, dump.name_length, usize::MAX);
    Drawing {
        accepted: imported.ok().map(|_| 0),
        calls: draw_imports(&mut random, &dump),
        kinds: Kinds::default(),
        dump_kinds: dump_kinds::kinds(&dump),
        bytes: dump.bytes,
        random,
    }
}

/// Draws a file for the readers: by turns a sound one, one with a fault, a bent one, a damaged one, and a hostile one.
fn draw_file(random: &mut Random, number: u64) -> (Image, Vec<u8>) {
    match number % 10 {
        0..=1 => with_file(shape(random).image()),
        2..=6 => draw_faulty(random, fault_of(number)),
        7 => draw_bent(random),
        8 => draw_damaged(random),
        _ => with_file(draw_hostile(random)),
    }
}

/// The refusals by turns, over those numbers that get a file with a fault.
fn fault_of(number: u64) -> u64 {
    let turn = number / 10 * 5 + number % 10;
    NUMBERS[(turn % NUMBERS.len() as u64) as usize]
}

/// The image and the file that it gives.
fn with_file(image: Image) -> (Image, Vec<u8>) {
    let file = image.bytes();
    (image, file)
}

/// Draws a file and changes one or two things; lengths, checksums and offsets follow.
fn draw_bent(random: &mut Random) -> (Image, Vec<u8>) {
    let mut image = shape(random).image();
    for _ in 0..1 + random.below(2) {
        bend(random, &mut image);
    }
    with_file(image)
}

/// Draws a file, changes bytes, and most times then repairs checksums.
fn draw_damaged(random: &mut Random) -> (Image, Vec<u8>) {
    let (image, mut file) = with_file(shape(random).image());
    for _ in 0..1 + random.below(3) {
        damage(random, &mut file);
    }
    if !random.once_in(4) {
        let what = Repair {
            blocks: !random.once_in(4),
            hash: !random.once_in(3),
            total: !random.once_in(8),
        };
        repair(&mut file, what);
    }
    (image, file)
}

/// The root's level, if the file is accepted.
pub fn root_level(file: &[u8]) -> Option<u8> {
    if check(file, usize::MAX).number != 0 {
        return None;
    }
    let offset = u64::from_le_bytes(file.get(16..24)?.try_into().ok()?);
    let block = file.get(usize::try_from(offset).ok()?..)?;
    let (_, digits) = number(block).ok()?;
    block.get(digits).copied()
}
