//! Metadata, and texts that aren't, for the readers and for the writer alike.

/// A name and a text.
type Named = (&'static str, Vec<u8>);

/// Arrays in an object, nested so deep with it.
fn nest(depth: usize) -> Vec<u8> {
    let inner = depth - 1;
    format!("{{\"a\": {}{}}}", "[".repeat(inner), "]".repeat(inner)).into_bytes()
}

/// Accepted ones that a careless reader would refuse.
pub fn accepted() -> Vec<Named> {
    let texts: [(&str, &[u8]); 9] = [
        ("nested", b"{\"a\": {}}"),
        ("half-pair", b"{\"a\": \"\\ud800\"}"),
        (
            "escapes",
            b"{\"\\u0000\\uABcd\": \"\\\"\\\\\\/\\b\\f\\n\\r\\t\"}",
        ),
        ("7f", b"{\"a\": \"\x7f\"}"),
        (
            "utf8",
            b"{\"\xc2\x80\xed\x9f\xbf\": \"\xee\x80\x80\xf4\x8f\xbf\xbf\"}",
        ),
        ("empty-name", b"{\"\": 0}"),
        ("equal-names", b"{\"a\": 1, \"a\": 2}"),
        (
            "numbers",
            b"{\"a\": [-0, 10.01, 0e0, 1E+09, 9e-99, 1e999999]}",
        ),
        ("white-space", b"{ \t\n\r\"a\"\t:\n[\rtrue , false,null]}"),
    ];
    let depth = ("depth-64", nest(64));
    texts.map(own).into_iter().chain([depth]).collect()
}

/// Refused ones.
pub fn refused() -> Vec<Named> {
    let texts: [(&str, &[u8]); 28] = [
        ("empty", b""),
        ("one-brace", b"{"),
        ("closing", b"}"),
        ("array", b"[]"),
        ("space-after", b"{} "),
        ("space-before", b" {}"),
        ("open", b"{\"a\": 1"),
        ("swapped", b"}{"),
        ("oops", b"{oops}"),
        ("zero-ff", b"{\0\xff}"),
        ("byte-order-mark", b"\xef\xbb\xbf{}"),
        ("object-after", b"{}{}"),
        ("brace-after", b"{}}"),
        ("no-value", b"{\"a\"}"),
        ("last-comma", b"{\"a\": 1,}"),
        ("array-comma", b"{\"a\": [1,]}"),
        ("leading-zero", b"{\"a\": 01}"),
        ("no-fraction", b"{\"a\": 1.}"),
        ("capital", b"{\"a\": True}"),
        ("capital-u", b"{\"a\": \"\\U0041\"}"),
        ("no-escape", b"{\"a\": \"\\x\"}"),
        ("string-open", b"{\"a\": \"}"),
        ("control-byte", b"{\"a\": \"\x1f\"}"),
        ("single-quotes", b"{'a': 1}"),
        ("cut-character", b"{\"a\": \"\xc3\"}"),
        ("overlong", b"{\"a\": \"\xc0\x80\"}"),
        ("surrogate", b"{\"a\": \"\xed\xa0\x80\"}"),
        ("above-10ffff", b"{\"a\": \"\xf4\x90\x80\x80\"}"),
    ];
    let depth = ("depth-65", nest(65));
    texts.map(own).into_iter().chain([depth]).collect()
}

fn own((name, text): (&'static str, &[u8])) -> Named {
    (name, text.to_vec())
}
