//! Faults of the header: 2 to 9.

use zs_reference::maker::random::Random;
use zs_reference::maker::texts::{change, grow};
use zs_reference::maker::Image;
use zs_reference::reader::is_metadata;

/// Set above a right number, these are lost where it is taken as one of 16 or 32 bits, or as a signed one.
const HIGH_BITS: [u64; 4] = [1 << 16, 1 << 31, 1 << 32, 1 << 63];

const UNFINISHED: [u8; 8] = *b"\xabZStoBe\x01";

/// Texts that don't begin and end as an object.
const NO_BRACES: [&[u8]; 8] = [b"", b"{", b"}", b"}{", b"{} ", b" {}", b"[]", b"{\"a\": 1]"];

/// Texts in braces that aren't JSON, or not UTF-8.
const NO_OBJECTS: [&[u8]; 12] = [
    b"{oops}",
    b"{\0\xff}",
    b"{}{}",
    b"{}}",
    b"{\"a\": 1,}",
    b"{\"a\": [1,]}",
    b"{\"a\": 01}",
    b"{\"a\": \"\\x\"}",
    b"{\"a\": \"\x1f\"}",
    b"{\"a\": \"\xc0\x80\"}",
    b"{\"a\": \"\xed\xa0\x80\"}",
    b"{\"a\": \"\xf4\x90\x80\x80\"}",
];

/// Gives the file with a fault in its header.
pub fn damage(random: &mut Random, number: u64, mut image: Image) -> Vec<u8> {
    match number {
        2 => image.magic = UNFINISHED,
        3 => return spoil_magic(random, &mut image),
        4 => return cut_header(random, &mut image),
        5 => return spoil_crc(random, &mut image),
        6 => spoil_lengths(random, &mut image),
        7 => change_codec(random, &mut image),
        8 => return spoil_total(random, &mut image),
        _ => spoil_metadata(random, &mut image),
    }
    let mut file = image.bytes();
    // After its magic an unfinished file may be anything.
    if number == 2 && random.once_in(2) {
        file.truncate(8 + random.below(file.len()));
    }
    file
}

/// 3: other first bytes, or fewer than eight.
fn spoil_magic(random: &mut Random, image: &mut Image) -> Vec<u8> {
    match random.below(4) {
        0 => image.magic = random.next().to_le_bytes(),
        1 => image.magic = *b"\xabZSxxxx\x01",
        2 => image.magic[random.below(8)] ^= 1 << random.below(8),
        _ => {
            if random.once_in(2) {
                image.magic = UNFINISHED;
            }
            let mut file = image.bytes();
            file.truncate(random.below(8));
            return file;
        }
    }
    image.bytes()
}

/// 4: fewer than 16 bytes, or a header that runs past the end.
fn cut_header(random: &mut Random, image: &mut Image) -> Vec<u8> {
    let length = image.bytes().len();
    let header = image.blocks_at() as usize;
    match random.below(4) {
        0 => {
            let mut file = image.bytes();
            file.truncate(8 + random.below(8));
            return file;
        }
        1 => {
            let mut file = image.bytes();
            file.truncate(16 + random.below(header - 16));
            return file;
        }
        2 => {
            let high = (header - 24) as u64 | random.pick(&HIGH_BITS);
            let huge = [u64::MAX, u64::MAX - 7, u64::MAX - 23, u64::MAX - 24, high];
            image.header_length = Some(random.pick(&huge));
        }
        _ => image.header_length = Some((length - 23 + random.below(30)) as u64),
    }
    image.bytes()
}

/// 5: a wrong CRC, or a changed byte under a CRC that stays.
fn spoil_crc(random: &mut Random, image: &mut Image) -> Vec<u8> {
    match random.below(3) {
        0 => image.header_crc_flips = 1 << random.below(64),
        1 => image.header_crc_flips = random.next(),
        _ => {
            let header = image.blocks_at() as usize;
            let mut file = image.bytes();
            file[16 + random.below(header - 16)] ^= 1 << random.below(8);
            return file;
        }
    }
    image.bytes()
}

/// 6: H below 80, or M above H-80.
fn spoil_lengths(random: &mut Random, image: &mut Image) {
    let room = (image.metadata.len() + image.extra.len()) as u64;
    match random.below(4) {
        0 => image.header_cut = Some(random.pick(&[0, 1, 71, 72, 79])),
        1 => image.header_cut = Some(random.below(80)),
        2 => image.metadata_length = Some(room + 1 + random.below(3) as u64),
        _ => {
            let high = image.metadata.len() as u64 | random.pick(&HIGH_BITS);
            let huge = [u64::MAX, u64::MAX - 79, 1 << 63, high, high];
            image.metadata_length = Some(random.pick(&huge));
        }
    }
}

/// 7: another codec.
fn change_codec(random: &mut Random, image: &mut Image) {
    match random.below(3) {
        0 => image.codec = *b"deflate\0\0\0\0\0\0\0\0\0",
        1 => image.codec = *b"none            ",
        _ => image.codec[random.below(16)] ^= 1 << random.below(8),
    }
}

/// 8: another total length, or more or fewer bytes than it says.
fn spoil_total(random: &mut Random, image: &mut Image) -> Vec<u8> {
    let mut file = image.bytes();
    let length = file.len() as u64;
    match random.below(5) {
        0 => image.total = Some(random.pick(&[length - 1, length + 1])),
        1 => image.total = Some(random.pick(&[0, u64::MAX, length << 32])),
        2 => image.total = Some(length | random.pick(&HIGH_BITS)),
        3 => {
            file.extend(random.string(20));
            return file;
        }
        _ => {
            let header = image.blocks_at() as usize;
            file.truncate(header + random.below(file.len() - header));
            return file;
        }
    }
    image.bytes()
}

/// 9: a text that isn't metadata, or only a beginning of metadata. Bytes after it don't count.
fn spoil_metadata(random: &mut Random, image: &mut Image) {
    match random.below(3) {
        0 => image.metadata_length = Some(random.below(image.metadata.len()) as u64),
        _ => image.metadata = bad_metadata(random),
    }
    if random.once_in(2) {
        image.extra = b"}".to_vec();
    }
}

/// A text that isn't metadata: one of those above, one nested too deep, or a changed one.
pub fn bad_metadata(random: &mut Random) -> Vec<u8> {
    loop {
        let text = match random.below(5) {
            0 => random.pick(&NO_BRACES).to_vec(),
            1 | 2 => random.pick(&NO_OBJECTS).to_vec(),
            3 => grow(random, 65),
            _ => {
                let mut text = grow(random, 2);
                change(random, &mut text);
                text
            }
        };
        if !is_metadata(&text) {
            return text;
        }
    }
}
