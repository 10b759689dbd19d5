//! Bytes made to mislead a search: shared, overlapping and damaged blocks.

use super::build::{alter, everything, plain, prefix, query, start, stop, two_levels};
use super::{Claim, Corpus};
use crate::maker::{Content, Image, Plan, Target};
use crate::reader::Query;

/// Adds the files.
pub fn add(corpus: &mut Corpus) {
    add_astronomical(corpus);
    add_hidden_blocks(corpus);
    add_block_in_a_key(corpus);
    add_every_offset(corpus);
    add_damage_unseen(corpus);
    add_search_order(corpus);
    add_crossed_bounds(corpus);
    add_short_lists(corpus);
    add_missed_records(corpus);
}

/// Adds a file of which nothing is claimed, with its usual cases and more queries.
fn add_asked(corpus: &mut Corpus, name: &str, image: &Image, queries: &[Query]) {
    corpus.add_file(name, image.bytes(), Claim::Nothing);
    corpus.ask_usual(name);
    for query in queries {
        corpus.ask_search(name, query);
    }
}

/// A query that only the strings just above `key` match.
fn just_above(key: &[u8]) -> Query {
    let start = [key, b"\0"].concat();
    let stop = [key, b"\x01"].concat();
    query(&start, Some(&stop), b"")
}

/// Sixty-three levels, each naming the same child three times: 3^63 ways down.
fn add_astronomical(corpus: &mut Corpus) {
    let mut blocks = vec![Plan::data(&["a", "b\0", "c\0"])];
    for level in 1..=63 {
        let child = usize::from(level) - 1;
        let entries = [("a", child), ("b", child), ("c", child)];
        blocks.push(Plan::index(level, &entries));
    }
    let image = Image::new(blocks);
    let name = "astronomical";
    corpus.add_refused(name, image.bytes(), 20, image.start(0));
    corpus.check(name, 64);
    for query in [just_above(b"b"), just_above(b"c"), stop(b""), prefix(b"b")] {
        corpus.ask_search(name, &query);
    }
    for places in [0, 1, 64, 127] {
        corpus.search(name, &everything(), places, 128);
    }
    corpus.search(name, &everything(), 128, 0);
    // Of the first 100 blocks opened 24 are the data block, with three matches each time.
    for result_places in [72, 71, 73] {
        corpus.search(name, &everything(), 100, result_places);
    }
    corpus.search(name, &just_above(b"b"), 63, 1);

    let mut blocks = vec![Plan::data(&["a"])];
    for level in 1..=63 {
        blocks.push(Plan::index(level, &[("", usize::from(level) - 1); 20]));
    }
    let image = Image::new(blocks);
    corpus.add_refused("astronomical-20", image.bytes(), 20, image.start(0));
    corpus.ask_search("astronomical-20", &start(b"b"));
}

/// Whole blocks inside a record, named by entries: they overlap the block around them.
fn add_hidden_blocks(corpus: &mut Corpus) {
    let inner = Image::new(vec![Plan::data(&["m", "n"])]).bytes();
    let hidden = &inner[106..];
    let size = hidden.len() as u64;
    let image = Image::new(vec![
        Plan::data(&[hidden, b"\x7a"]),
        Plan::naming(
            1,
            &[
                ("", Target::Block(0)),
                ("m", Target::Exactly(109, size)),
                ("n", Target::Exactly(109, size)),
                ("z", Target::Block(0)),
            ],
        ),
    ]);
    let queries = [prefix(b"m"), prefix(b"n"), prefix(b"z"), stop(b"a")];
    add_asked(corpus, "in-a-record", &image, &queries);

    let mut tree = plain();
    tree.reserved = vec![(1, 64, hidden.to_vec())];
    let image = alter(&tree, |image| {
        let hidden_at = image.start(1) + 2;
        if let Content::Entries(entries) = &mut image.blocks[4].content {
            entries[1].target = Target::Exactly(hidden_at, size);
        }
    });
    let queries = [prefix(b"m"), prefix(b"n"), prefix(b"b")];
    add_asked(corpus, "in-reserved", &image, &queries);
}

/// The root names a data block that stands in its own key.
fn add_block_in_a_key(corpus: &mut Corpus) {
    let inner = Image::new(vec![Plan::data(&["k", "l"])]).bytes();
    let hidden = &inner[106..];
    let target = Target::Exactly(109, hidden.len() as u64);
    let image = Image::new(vec![Plan::naming(1, &[(hidden, target)])]);
    let queries = [prefix(b"k"), prefix(b"\0"), start(b"l\0")];
    add_asked(corpus, "in-its-key", &image, &queries);
}

/// One entry for each offset from before the first block to after the last one.
fn add_every_offset(corpus: &mut Corpus) {
    let tree = plain();
    let blocks_end = tree.image().start(3);
    let offsets: Vec<u64> = (104..blocks_end + 8).collect();
    let entry = |(number, offset): (usize, &u64)| {
        let key = vec![0x20 + number as u8];
        (key, Target::Exactly(*offset, 15))
    };
    let entries: Vec<_> = offsets.iter().enumerate().map(entry).collect();
    let image = alter(&tree, |image| image.blocks[3] = Plan::naming(1, &entries));
    let queries: Vec<Query> = entries.iter().map(|(key, _)| just_above(key)).collect();
    add_asked(corpus, "offsets", &image, &queries);
}

/// Damage is found only in blocks that are opened.
fn add_damage_unseen(corpus: &mut Corpus) {
    let queries = [stop(b"b"), prefix(b"c"), start(b"d\0"), prefix(b"b")];
    let plans = [
        ("unseen-crc", Plan::data(&["b", "ca"]).with_crc_flips(1)),
        ("unseen-empty", Plan::bytes(0, b"")),
        ("unseen-order", Plan::data(&["ca", "b"])),
        ("unseen-reserved", Plan::bytes(64, b"\x01b\x02ca")),
        ("unseen-index", Plan::index(1, &[("b", 0)])),
    ];
    for (name, plan) in plans {
        let image = alter(&plain(), |image| image.blocks[1] = plan);
        add_asked(corpus, name, &image, &queries);
    }
}

/// Two faults on one block, which show the order of the search.
fn add_search_order(corpus: &mut Corpus) {
    let wrong_size = |plan: Plan| {
        alter(&plain(), |image| {
            image.blocks[1] = plan;
            if let Content::Entries(entries) = &mut image.blocks[3].content {
                entries[1].target = Target::Beside(1, 0, 1);
            }
        })
    };
    let crc = wrong_size(Plan::data(&["b", "ca"]).with_crc_flips(1));
    add_asked(corpus, "search-14-19", &crc, &[prefix(b"c")]);
    let empty = wrong_size(Plan::bytes(0, b""));
    add_asked(corpus, "search-19-15", &empty, &[prefix(b"c")]);
    let falling = wrong_size(Plan::data(&["ca", "b"]));
    add_asked(corpus, "search-19-16", &falling, &[prefix(b"c")]);
    let root = alter(&plain(), |image| {
        image.blocks[3].crc_flips = 1;
        image.root = Target::Beside(3, 0, 1);
    });
    add_asked(corpus, "search-14-17", &root, &[]);
    let root = alter(&plain(), |image| {
        image.blocks[3] = Plan::index(1, &[("b", 0), ("a", 1)]);
        image.root = Target::Beside(3, 0, 1);
    });
    add_asked(corpus, "search-17-21", &root, &[]);
    let above = Plan::index(2, &[("a", 4), ("b", 1)]);
    let level = alter(&plain(), |image| {
        image.blocks[3] = above;
        image.blocks.push(Plan::index(1, &[("ab", 0)]));
    });
    let queries = [stop(b"a"), prefix(b"ab"), prefix(b"c")];
    add_asked(corpus, "search-level", &level, &queries);
    add_whole_payload_first(corpus);
}

/// A payload is tested to its end before its first entry is used.
fn add_whole_payload_first(corpus: &mut Corpus) {
    let image = two_levels().image();
    let mut payload = image.blocks[4].payload(&image.places());
    payload.push(0x80);
    let image = alter(&two_levels(), |image| {
        image.blocks[4] = Plan::bytes(1, &payload);
    });
    let name = "search-15-26";
    add_asked(corpus, name, &image, &[start(b"g")]);
    for opened_places in [1, 2] {
        corpus.search(name, &everything(), opened_places, 0);
    }
}

/// A key above the upper bound of its index block: no query opens the block it names.
fn add_crossed_bounds(corpus: &mut Corpus) {
    let image = Image::new(vec![
        Plan::data(&["a"]),
        Plan::data(&["b"]),
        Plan::data(&["c"]),
        Plan::index(1, &[("a", 0), ("z", 1)]),
        Plan::index(1, &[("c", 2)]),
        Plan::index(2, &[("a", 3), ("c", 4)]),
    ]);
    let name = "24-crossed";
    corpus.add_refused(name, image.bytes(), 24, image.start(3));
    for query in [prefix(b"b"), prefix(b"z"), start(b"c")] {
        corpus.ask_search(name, &query);
    }
}

/// Lists that end before, at or after a fault.
fn add_short_lists(corpus: &mut Corpus) {
    let image = alter(&plain(), |image| image.blocks[2].crc_flips = 1);
    let name = "14-late";
    corpus.add_refused(name, image.bytes(), 14, image.start(2));
    for result_places in [1, 3, 4] {
        corpus.search(name, &everything(), 4, result_places);
        corpus.read(name, &everything(), result_places);
    }
    for opened_places in [0, 1, 3] {
        corpus.search(name, &everything(), opened_places, 6);
    }
    corpus.search("16-falling", &everything(), 4, 0);
    corpus.search("17-end", &everything(), 0, 0);
    corpus.search("17-end", &everything(), 1, 0);
    corpus.search("19-at-0", &everything(), 4, 6);
    corpus.search("7-then-8", &everything(), 0, 0);
}

/// Wrong keys lose records without any refusal; reading front to back finds them.
fn add_missed_records(corpus: &mut Corpus) {
    let image = alter(&plain(), |image| {
        image.blocks[3] = Plan::index(1, &[("m", 0), ("n", 1), ("o", 2)]);
    });
    let name = "24-all-high";
    corpus.add_refused(name, image.bytes(), 24, image.start(3));
    for query in [prefix(b"b"), stop(b"e"), start(b"m"), start(b"z")] {
        corpus.ask(name, &query);
    }
}
