//! Texts about the edges of JSON and of UTF-8, the same ones each time and most of them wrong.

/// Of what every number is made, and much that isn't one.
const NUMERIC: [&str; 9] = ["-", "+", "0", "1", "5", "9", ".", "e", "E"];
/// The tokens that make the structure, and two that are values.
const TOKENS: [&str; 8] = ["{", "}", "[", "]", ",", ":", "\"\"", "0"];
/// How many of them stand in a row at most.
const LONGEST: usize = 5;
/// A text with every kind of token, to be changed at every place.
const DENSE: &str = "{\"a\\n\":[-1.5e+3,\"\\u00E9é😀\",{},true],\"\": null}";
/// The ends of the ranges that RFC 3629 has for the bytes of a character after its first, and those beside them.
const TAILS: [u8; 8] = [0x7f, 0x80, 0x8f, 0x90, 0x9f, 0xa0, 0xbf, 0xc0];
/// The ends that matter from the third byte on.
const LATER_TAILS: [u8; 4] = [0x7f, 0x80, 0xbf, 0xc0];

/// All of them.
pub fn edges() -> Vec<Vec<u8>> {
    let mut texts = vec![b"\xef\xbb\xbf{}".to_vec()];
    texts.extend(rows(&NUMERIC).map(|number| [b"{\"a\":", &number[..], b"}"].concat()));
    texts.extend(rows(&TOKENS).map(|row| [b"{", &row[..], b"}"].concat()));
    let strings = escapes().into_iter().chain(characters());
    texts.extend(strings.map(|string| [b"{\"", &string[..], b"\":0}"].concat()));
    texts.extend(changes(DENSE.as_bytes()));
    texts.extend((62..=66).chain([127, 128, 1000]).flat_map(nestings));
    texts
}

/// Every row of at most `LONGEST` pieces.
fn rows<'a>(pieces: &'a [&str]) -> impl Iterator<Item = Vec<u8>> + 'a {
    let count = pieces.len();
    let of_length = move |length: usize| {
        (0..count.pow(length as u32)).map(move |number| row(pieces, length, number))
    };
    (0..=LONGEST).flat_map(of_length)
}

/// The row whose pieces are the digits of a number.
fn row(pieces: &[&str], length: usize, mut number: usize) -> Vec<u8> {
    let mut row = Vec::new();
    for _ in 0..length {
        row.extend(pieces[number % pieces.len()].bytes());
        number /= pieces.len();
    }
    row
}

/// Every byte after a backslash, and every byte in the place of each digit of an escape.
fn escapes() -> Vec<Vec<u8>> {
    let mut strings: Vec<Vec<u8>> = (0..=0xff).map(|byte| vec![b'\\', byte]).collect();
    for place in 2..6 {
        for byte in 0..=0xff {
            let mut string = b"\\u0bCf".to_vec();
            string[place] = byte;
            strings.push(string);
        }
    }
    strings
}

/// Every byte alone; every byte from 80 on with one, two and three after it that are about the ends of their ranges.
fn characters() -> Vec<Vec<u8>> {
    let mut strings: Vec<Vec<u8>> = (0..=0xff).map(|byte| vec![byte]).collect();
    for first in 0x80..=0xff {
        for second in TAILS {
            strings.push(vec![first, second]);
            for third in LATER_TAILS {
                strings.push(vec![first, second, third]);
                strings.extend(LATER_TAILS.map(|fourth| vec![first, second, third, fourth]));
            }
        }
    }
    strings
}

/// Every beginning of a text; every byte of it replaced and removed, and every byte inserted at every place.
fn changes(text: &[u8]) -> Vec<Vec<u8>> {
    let mut texts = Vec::new();
    for at in 0..=text.len() {
        let (before, after) = text.split_at(at);
        texts.push(before.to_vec());
        let with = |byte, rest| [before, &[byte], rest].concat();
        texts.extend((0..=0xff).map(|byte| with(byte, after)));
        if let Some((_, rest)) = after.split_first() {
            texts.push([before, rest].concat());
            texts.extend((0..=0xff).map(|byte| with(byte, rest)));
        }
    }
    texts
}

/// Objects, arrays, and both by turns, nested so deep in the outer object; each whole, with a bracket less, and with a brace more.
fn nestings(depth: usize) -> Vec<Vec<u8>> {
    let is_object: [fn(usize) -> bool; 3] = [|_| true, |_| false, |level| level % 2 == 0];
    let whole = is_object.map(|is_object| nest(depth, is_object));
    let changed = whole
        .iter()
        .flat_map(|text| [text[..text.len() - 1].to_vec(), [text, &b"}"[..]].concat()]);
    changed.chain(whole.clone()).collect()
}

/// The text with one container on each level, and a number in the innermost.
fn nest(depth: usize, is_object: fn(usize) -> bool) -> Vec<u8> {
    let is_object = |level| level == 0 || is_object(level);
    let open = (0..depth).map(|level| if is_object(level) { "{\"a\":" } else { "[" });
    let close = (0..depth)
        .rev()
        .map(|level| if is_object(level) { "}" } else { "]" });
    open.chain(["0"])
        .chain(close)
        .collect::<String>()
        .into_bytes()
}
