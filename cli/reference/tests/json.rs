//! The recogniser of metadata against serde_json, which shares no code with it.
//!
//! serde_json reads a text to ignore it (`IgnoredAny`), which is the grammar alone, or builds a `Value` of it. It differs from the
//! metadata rule in other things in each:
//!
//! | a text with | the rule | `IgnoredAny` | `Value` |
//! |---|---|---|---|
//! | white space outside the braces | refused | taken | taken |
//! | no object | refused | taken | taken |
//! | more than 64 containers in each other | refused | taken | taken up to 127 |
//! | wrong UTF-8 in a string | refused | taken | refused |
//! | half a surrogate pair, escaped | taken | taken | refused |
//! | a number too great for a double | taken | taken | refused |
//!
//! In everything else the three agree, on very many texts.

use crate::support::json::{has_braces, is_json, is_metadata as due, is_shallow, is_utf8};
use serde_json::{from_slice, Value};
use zs_reference::maker::edges;
use zs_reference::maker::random::Random;
use zs_reference::maker::texts::{change, grow};
use zs_reference::reader::is_metadata;

/// What serde_json says where a `Value` can't hold a text that may be metadata.
const TOO_MUCH_FOR_A_VALUE: [&str; 3] = [
    "lone leading surrogate in hex escape",
    "unexpected end of hex escape",
    "number out of range",
];

/// Whether a text agrees with both ways of reading it, beside the differences named above.
fn agrees(text: &[u8]) -> bool {
    let taken = is_metadata(text);
    let as_value = match from_slice::<Value>(text) {
        Ok(_) => taken == (has_braces(text) && is_shallow(text)),
        Err(error) => {
            let error = error.to_string();
            !taken
                || TOO_MUCH_FOR_A_VALUE
                    .iter()
                    .any(|named| error.starts_with(named))
        }
    };
    taken == due(text) && as_value
}

/// Compares on all texts, and answers how many of them are metadata.
fn compare(texts: impl Iterator<Item = Vec<u8>>) -> usize {
    let mut taken = 0;
    for text in texts {
        assert!(agrees(&text), "{}", text.escape_ascii());
        taken += usize::from(is_metadata(&text));
    }
    taken
}

#[test]
fn edges_agree() {
    let texts = edges();
    let all = texts.len();
    let taken = compare(texts.into_iter());
    assert!(all > 100_000 && taken > 1000, "{taken} of {all}");
}

#[test]
fn grown_texts_are_metadata_up_to_depth_64() {
    let mut random = Random::new(11);
    for depth in 1..=70 {
        let texts = (0..20).map(|_| grow(&mut random, depth));
        assert_eq!(compare(texts), if depth <= 64 { 20 } else { 0 }, "{depth}");
    }
}

#[test]
fn changed_texts_agree() {
    let mut random = Random::new(12);
    let texts = (0..40_000).map(|_| {
        let depth = random.pick(&[1, 1, 2, 2, 3, 4, 64, 65]);
        let mut text = grow(&mut random, depth);
        for _ in 0..1 + random.below(2) {
            change(&mut random, &mut text);
        }
        text
    });
    let taken = compare(texts);
    assert!((2000..38_000).contains(&taken), "{taken}");
}

/// Whether a text is taken by the rule, to be ignored, and as a `Value`.
fn answers(text: &[u8]) -> [bool; 3] {
    [
        is_metadata(text),
        is_json(text),
        from_slice::<Value>(text).is_ok(),
    ]
}

/// Containers nested so deep.
fn nested(depth: usize) -> Vec<u8> {
    let inner = depth - 1;
    format!("{{\"a\":{}{}}}", "[".repeat(inner), "]".repeat(inner)).into_bytes()
}

#[test]
fn white_space_outside_the_braces() {
    for text in [" {}", "{} ", "\t{}", "{}\n", "\r\n{}\r\n"] {
        assert_eq!(answers(text.as_bytes()), [false, true, true], "{text:?}");
    }
    assert_eq!(answers(b"{ \t\r\n}"), [true; 3]);
}

#[test]
fn values_that_are_no_objects() {
    for text in ["[]", "0", "\"a\"", "true", "null", "[{}]"] {
        assert_eq!(answers(text.as_bytes()), [false, true, true], "{text}");
    }
}

#[test]
fn depths() {
    assert_eq!(answers(&nested(64)), [true; 3]);
    assert_eq!(answers(&nested(65)), [false, true, true]);
    assert_eq!(answers(&nested(127)), [false, true, true]);
    assert_eq!(answers(&nested(128)), [false, true, false]);
    assert_eq!(answers(&nested(10_000)), [false, true, false]);
}

#[test]
fn wrong_utf8() {
    for string in [
        &b"\xff"[..],
        b"\x80",
        b"\xc3",
        b"\xc0\x80",
        b"\xed\xa0\x80",
        b"\xf4\x90\x80\x80",
    ] {
        let text = [b"{\"", string, b"\":0}"].concat();
        assert!(!is_utf8(&text));
        assert_eq!(answers(&text), [false, true, false], "{string:x?}");
    }
    assert_eq!(answers(b"{\"\xed\x9f\xbf\xf4\x8f\xbf\xbf\":0}"), [true; 3]);
    // Outside strings serde_json takes no byte from 80 up either.
    assert_eq!(answers(b"{\xff}"), [false; 3]);
    assert_eq!(answers(b"\xef\xbb\xbf{}"), [false; 3]);
}

#[test]
fn halves_of_surrogate_pairs() {
    for string in [
        "\\ud800",
        "\\udbffa",
        "\\uDC00",
        "\\ud800\\n",
        "\\ud800\\ud800",
    ] {
        let text = format!("{{\"{string}\":0}}").into_bytes();
        assert_eq!(answers(&text), [true, true, false], "{string}");
    }
    assert_eq!(answers(b"{\"\\ud800\\udc00\":0}"), [true; 3]);
}

#[test]
fn numbers_too_great_for_a_double() {
    for number in ["1e309", "-1E+999", "1e99999999999999999999"] {
        let text = format!("{{\"a\":{number}}}").into_bytes();
        assert_eq!(answers(&text), [true, true, false], "{number}");
    }
    for number in ["1e308", "1e-999", "123456789012345678901234567890"] {
        let text = format!("{{\"a\":{number}}}").into_bytes();
        assert_eq!(answers(&text), [true; 3], "{number}");
    }
}
