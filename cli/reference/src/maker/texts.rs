//! JSON texts drawn from a seed, grown from the grammar of RFC 8259, and one-byte changes of texts.

use super::random::Random;

/// Bytes that mean something in JSON or in UTF-8, or stand at an edge of what does.
const TELLING: &[u8] = b"{}[],:\"\\/-+.eE0159truefalsnbU \t\n\r\x00\x08\x0b\x1f\x7f\x80\x8f\x90\x9f\xa0\xbf\xc0\xc2\xdf\xe0\xed\xef\xf0\xf4\xf5\xff";
/// Single bytes of strings, those of the structure among them.
const LETTERS: &[u8] = b" !#azAZ09{}[],:/'~\x7f";
/// First and last characters of each length in UTF-8, and those about the surrogates.
const CHARACTERS: [char; 10] = [
    '\u{80}',
    '\u{7ff}',
    '\u{800}',
    '\u{fff}',
    '\u{d7ff}',
    '\u{e000}',
    '\u{ffff}',
    '\u{10000}',
    '\u{fffff}',
    '\u{10ffff}',
];
/// Four digits of an escape: surrogates alone and in pairs, control characters, the ends.
const UNITS: [u16; 9] = [
    0x0000, 0x001f, 0x0022, 0xd7ff, 0xd800, 0xdbff, 0xdc00, 0xdfff, 0xffff,
];

/// An object in which objects and arrays are nested exactly `depth` deep, itself among them; so `depth` is at least 1.
pub fn grow(random: &mut Random, depth: usize) -> Vec<u8> {
    let mut text = Vec::new();
    put_container(random, depth, b"{}", &mut text);
    text
}

/// Replaces, inserts or removes one byte of a text that has some.
pub fn change(random: &mut Random, text: &mut Vec<u8>) {
    let any = random.next() as u8;
    let byte = if random.once_in(3) {
        any
    } else {
        random.pick(TELLING)
    };
    let at = random.below(text.len());
    match random.below(3) {
        0 => text[at] = byte,
        1 => text.insert(at + random.below(2), byte),
        _ => {
            text.remove(at);
        }
    }
}

/// Puts an object or an array, of which one item goes as deep as is due.
fn put_container(random: &mut Random, depth: usize, brackets: &[u8; 2], text: &mut Vec<u8>) {
    let least = usize::from(depth > 1);
    let items = least + random.pick(&[0, 0, 1, 1, 2]);
    let deepest = random.below(items);
    text.push(brackets[0]);
    put_space(random, text);
    for item in 0..items {
        if item > 0 {
            text.push(b',');
            put_space(random, text);
        }
        if brackets == b"{}" {
            put_name(random, text);
        }
        let below = if item == deepest {
            depth - 1
        } else {
            random.below(depth.min(3))
        };
        put_value(random, below, text);
        put_space(random, text);
    }
    text.push(brackets[1]);
}

/// Puts a value with containers nested exactly `depth` deep.
fn put_value(random: &mut Random, depth: usize, text: &mut Vec<u8>) {
    if depth > 0 {
        let brackets = random.pick(&[b"{}", b"[]"]);
        return put_container(random, depth, brackets, text);
    }
    match random.below(5) {
        0 => text.extend(random.pick(&["true", "false", "null"]).bytes()),
        1 | 2 => put_number(random, text),
        _ => put_string(random, text),
    }
}

fn put_name(random: &mut Random, text: &mut Vec<u8>) {
    put_string(random, text);
    put_space(random, text);
    text.push(b':');
    put_space(random, text);
}

fn put_space(random: &mut Random, text: &mut Vec<u8>) {
    if random.once_in(6) {
        text.extend((0..1 + random.below(2)).map(|_| random.pick(b" \t\n\r")));
    }
}

fn put_string(random: &mut Random, text: &mut Vec<u8>) {
    text.push(b'"');
    for _ in 0..random.below(4) {
        match random.below(6) {
            0 => text.extend([b'\\', random.pick(b"\"\\/bfnrt")]),
            1 => put_unit(random, text),
            2 => text.extend(random.pick(&CHARACTERS).to_string().bytes()),
            _ => text.push(random.pick(LETTERS)),
        }
    }
    text.push(b'"');
}

/// Puts an escape of four hexadecimal digits, in capitals at times.
fn put_unit(random: &mut Random, text: &mut Vec<u8>) {
    let any = random.next() as u16;
    let unit = random.pick(&UNITS);
    let unit = if random.once_in(3) { any } else { unit };
    let escape = if random.once_in(2) {
        format!("\\u{unit:04x}")
    } else {
        format!("\\u{unit:04X}")
    };
    text.extend(escape.bytes());
}

fn put_number(random: &mut Random, text: &mut Vec<u8>) {
    if random.once_in(2) {
        text.push(b'-');
    }
    if random.once_in(3) {
        text.push(b'0');
    } else {
        text.push(b'1' + random.below(9) as u8);
        let more = random.pick(&[0, 0, 1, 3, 25]);
        put_digits(random, more, text);
    }
    if random.once_in(2) {
        text.push(b'.');
        let digits = 1 + random.below(3);
        put_digits(random, digits, text);
    }
    if random.once_in(2) {
        text.push(random.pick(b"eE"));
        text.extend(random.pick(&["", "+", "-"]).bytes());
        let digits = 1 + random.below(4);
        put_digits(random, digits, text);
    }
}

fn put_digits(random: &mut Random, count: usize, text: &mut Vec<u8>) {
    text.extend((0..count).map(|_| b'0' + random.below(10) as u8));
}
