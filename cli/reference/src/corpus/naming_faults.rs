//! Files refused for the root, for the work list or for names: 17 to 20.

use super::build::{alter, plain, prefix, stop, two_levels};
use super::Corpus;
use crate::maker::{Content, Entry, Image, Plan, Target};

/// Adds the files.
pub fn add(corpus: &mut Corpus) {
    add_roots(corpus);
    add_hidden_root(corpus);
    add_work_lists(corpus);
    add_entries_beside(corpus);
    add_entries_of_wrong_level(corpus);
    add_unnamed(corpus);
    add_named_twice(corpus);
    add_named_root(corpus);
}

fn add_roots(corpus: &mut Corpus) {
    let end = plain().bytes().len() as u64;
    for (name, root) in [
        ("17-late", Target::Beside(3, 1, 0)),
        ("17-early", Target::Beside(3, -1, 0)),
        ("17-size", Target::Beside(3, 0, 1)),
        ("17-size-l", Target::Beside(3, 0, -9)),
        ("17-data", Target::Block(2)),
        ("17-at-0", Target::Exactly(0, 24)),
        ("17-header", Target::Exactly(105, 24)),
        ("17-end", Target::Exactly(end, 24)),
        ("17-2e64", Target::Exactly(u64::MAX, 24)),
        (
            "17-size-2e64",
            Target::Exactly(plain().image().start(3), u64::MAX),
        ),
    ] {
        let image = alter(&plain(), |image| image.root = root);
        corpus.add_refused(name, image.bytes(), 17, 0);
    }
    let image = alter(&plain(), |image| image.blocks.clear());
    corpus.add_refused("17-no-blocks", image.bytes(), 17, 0);
    corpus.search("17-no-blocks", &prefix(b"a"), 0, 1);
    let mut tree = plain();
    tree.reserved = vec![(9, 64, b"\0\x6a\x0e".to_vec())];
    let image = alter(&tree, |image| image.root = Target::Block(4));
    corpus.add_refused("17-reserved", image.bytes(), 17, 0);
    let image = alter(&plain(), |image| {
        image.blocks = vec![Plan::bytes(64, b""), Plan::bytes(255, b"x")];
    });
    corpus.add_refused("17-none", image.bytes(), 17, 0);
}

/// A whole index block inside a reserved one: the check must not take it, the search may.
fn add_hidden_root(corpus: &mut Corpus) {
    let mut tree = plain();
    let inner = tree.image();
    let places = inner.places();
    let root = &inner.bytes()[places[3].offset as usize..];
    tree.reserved = vec![(9, 77, root.to_vec())];
    let outer = tree.image();
    // The inner block follows the reserved block's number and level byte.
    let at = outer.start(4) + 2;
    let image = alter(&tree, |image| {
        image.root = Target::Exactly(at, places[3].size);
    });
    corpus.add_refused("17-hidden", image.bytes(), 17, 0);
    corpus.ask("17-hidden", &prefix(b"b"));
}

/// 18: one place short, or none at all.
fn add_work_lists(corpus: &mut Corpus) {
    let mut tree = two_levels();
    tree.reserved = vec![(2, 64, b"uncounted".to_vec())];
    corpus.add_sound("seven-blocks", tree.bytes());
    for places in [0, 6, 8, 128] {
        corpus.check("seven-blocks", places);
    }
    corpus.check("three-levels", 18);
    corpus.check("one-entry-top", 1);
}

/// An entry more, whose name fits no block. All blocks are still named once.
fn add_with_more(corpus: &mut Corpus, name: &str, target: Target) {
    let image = alter(&plain(), |image| {
        push_entry(&mut image.blocks[3], b"e", target);
    });
    corpus.add_refused(name, image.bytes(), 19, image.start(3));
}

fn push_entry(plan: &mut Plan, key: &[u8], target: Target) {
    let key = key.to_vec();
    if let Content::Entries(entries) = &mut plan.content {
        entries.push(Entry { key, target });
    }
}

fn add_entries_beside(corpus: &mut Corpus) {
    let end = alter(&plain(), |image| {
        push_entry(&mut image.blocks[3], b"e", Target::Exactly(200, 15));
    });
    let end = end.bytes().len() as u64;
    for (name, target) in [
        ("19-size", Target::Beside(2, 0, 1)),
        ("19-size-l", Target::Beside(2, 0, -9)),
        ("19-late", Target::Beside(2, 1, 0)),
        ("19-early", Target::Beside(2, -1, 0)),
        ("19-at-0", Target::Exactly(0, 0)),
        ("19-header", Target::Exactly(105, 15)),
        ("19-end", Target::Exactly(end, 15)),
        ("19-2e63", Target::Exactly((1 << 63) - 1, 15)),
        ("19-size-2e63", Target::Exactly(106, (1 << 63) - 1)),
    ] {
        add_with_more(corpus, name, target);
        corpus.ask_search(name, &stop(b"c"));
    }
    let image = alter(&plain(), |image| {
        if let Content::Entries(entries) = &mut image.blocks[3].content {
            entries[1].target = Target::Beside(1, 0, 1);
        }
    });
    let place = image.start(3);
    corpus.add_refused_first("19-middle", image.bytes(), 19, place);
}

/// Entries that name a true block of a wrong level; most of these are named twice then.
fn add_entries_of_wrong_level(corpus: &mut Corpus) {
    let image = alter(&plain(), |image| {
        push_entry(&mut image.blocks[3], b"e", Target::Block(3));
    });
    let place = image.start(3);
    corpus.add_refused_first("19-itself", image.bytes(), 19, place);
    corpus.ask_search("19-itself", &prefix(b"b"));

    let mut tree = plain();
    tree.reserved = vec![(1, 64, b"\x01e".to_vec())];
    let image = alter(&tree, |image| {
        push_entry(&mut image.blocks[4], b"e", Target::Block(1));
    });
    corpus.add_refused("19-reserved", image.bytes(), 19, image.start(4));

    let image = alter(&two_levels(), |image| {
        push_entry(&mut image.blocks[6], b"i", Target::Block(3));
    });
    corpus.add_refused_first("19-skips", image.bytes(), 19, image.start(6));

    let image = alter(&two_levels(), |image| {
        push_entry(&mut image.blocks[4], b"d", Target::Block(5));
    });
    corpus.add_refused_first("19-own-level", image.bytes(), 19, image.start(4));

    let image = alter(&two_levels(), |image| {
        push_entry(&mut image.blocks[5], b"i", Target::Block(6));
    });
    corpus.add_refused_first("19-upward", image.bytes(), 19, image.start(5));
}

/// 20: blocks named by no entry.
fn add_unnamed(corpus: &mut Corpus) {
    for (name, left_out) in [("20-first", 0), ("20-middle", 1), ("20-last", 2)] {
        let image = alter(&plain(), |image| {
            if let Content::Entries(entries) = &mut image.blocks[3].content {
                entries.remove(left_out);
            }
        });
        corpus.add_refused(name, image.bytes(), 20, image.start(left_out));
    }
    let image = alter(&two_levels(), |image| {
        if let Content::Entries(entries) = &mut image.blocks[6].content {
            entries.truncate(1);
        }
    });
    corpus.add_refused("20-index", image.bytes(), 20, image.start(5));
    corpus.ask_search("20-index", &prefix(b"h"));
}

/// 20: blocks named by two entries, of one index block or of two.
fn add_named_twice(corpus: &mut Corpus) {
    let image = alter(&plain(), |image| {
        push_entry(&mut image.blocks[3], b"e", Target::Block(2));
    });
    corpus.add_refused("20-twice", image.bytes(), 20, image.start(2));
    corpus.ask("20-twice", &prefix(b"e"));

    let image = alter(&two_levels(), |image| {
        push_entry(&mut image.blocks[4], b"d", Target::Block(2));
    });
    corpus.add_refused("20-two-blocks", image.bytes(), 20, image.start(2));

    let image = alter(&two_levels(), |image| {
        push_entry(&mut image.blocks[6], b"f", Target::Block(5));
    });
    corpus.add_refused("20-index-twice", image.bytes(), 20, image.start(5));

    // 256 and 257 times: a count that is kept in one byte comes out as 0 or 1.
    for (name, more) in [("20-256-times", 255), ("20-257-times", 256)] {
        let image = alter(&plain(), |image| {
            for _ in 0..more {
                push_entry(&mut image.blocks[3], b"d", Target::Block(2));
            }
        });
        corpus.add_refused(name, image.bytes(), 20, image.start(2));
    }
}

/// 20: the root is named by a block above it, which is itself unnamed.
fn add_named_root(corpus: &mut Corpus) {
    let above = Plan::index(2, &[(b"ab", 3)]);
    let image = alter(&plain(), |image| image.blocks.push(above));
    corpus.add_refused("20-root-behind", image.bytes(), 20, image.start(3));

    let image = Image {
        root: Target::Block(4),
        ..Image::new(vec![
            Plan::index(2, &[("ab", 4)]),
            Plan::data(&["ab", "b"]),
            Plan::data(&["b", "ca"]),
            Plan::data(&["d", "e"]),
            Plan::index(1, &[("ab", 1), ("b", 2), ("d", 3)]),
        ])
    };
    corpus.add_refused("20-root-ahead", image.bytes(), 20, image.start(0));
}
