//! Searches of files that were never checked: they cost little, whatever the file asks for, and are explained rightly.

use crate::support::{shell, zs, Folder, Run};
use zs_reference::corpus::Corpus;
use zs_reference::maker::{Image, Plan, Target};
use zs_reference::reader::{self, Query};

/// Processor time and memory that every search of a short file gets along with.
const LIMITS: &str = "ulimit -t 10; ulimit -v 1000000";

/// Runs the command on a file of the folder, within limits.
fn run_within_limits(folder: &Folder, arguments: &str) -> Run {
    shell(&format!("{LIMITS}; exec $ZS {arguments}"), folder)
}

/// The offsets that `explain` shows.
fn shown_offsets(run: &Run) -> Vec<u64> {
    let first_word = |line: &str| line.split_whitespace().next()?.parse().ok();
    run.text().lines().filter_map(first_word).collect()
}

/// A root that names an index block 1000 times, which names a data block as often as it is told, by one key.
fn name_again_and_again(record: &[u8], key: &str, times: usize) -> Vec<u8> {
    let blocks = vec![
        Plan::data(&[record]),
        Plan::index(1, &vec![(key, 0); times]),
        Plan::index(2, &[("", 1); 1000]),
    ];
    Image::new(blocks).bytes()
}

#[test]
fn an_index_block_named_again_and_again_is_refused_at_once() {
    let folder = Folder::new();
    // The query opens the long index block each time, and no data block.
    folder.write("index.zs", &name_again_and_again(b"z", "z", 200_000));
    for command in ["explain", "dump --count", "dump"] {
        let run = run_within_limits(&folder, &format!("{command} --unchecked --stop b index.zs"));
        assert_eq!((run.status, run.out.len()), (1, 0), "{}", run.err);
        assert!(run.err.contains(": refused 20 at "), "{}", run.err);
    }
}

#[test]
fn a_data_block_named_again_and_again_is_refused_at_once() {
    let folder = Folder::new();
    folder.write("data.zs", &name_again_and_again(&[b'b'; 1 << 20], "", 1));
    for query in ["", "--stop a", "--stop c"] {
        for command in ["dump --count", "explain"] {
            let run = run_within_limits(&folder, &format!("{command} --unchecked {query} data.zs"));
            assert_eq!((run.status, run.out.len()), (1, 0), "{}", run.err);
            assert!(run.err.contains(": refused 20 at "), "{}", run.err);
        }
    }
}

#[test]
fn a_block_named_twice_is_shown_with_the_bounds_by_which_it_was_reached() {
    let blocks = vec![
        Plan::data(&["c", "d"]),
        Plan::index(1, &[("a", 0), ("b", 0), ("c", 0)]),
    ];
    let folder = Folder::new();
    let image = Image::new(blocks);
    let file = folder.write("twice.zs", &image.bytes());
    let run = zs(&["explain", "--unchecked", &file, "--start", "c"]);
    let (data, root) = (image.start(0), image.start(1));
    let due = format!(
        "{root}  level 1  the root
  {data}  level 0  \"b\" to \"c\", 2 matches
  {data}  level 0  \"c\" and up, 2 matches
opened 3 blocks, 4 matches, in vain: none\n"
    );
    assert_eq!((run.status, run.text()), (0, due));
}

#[test]
fn matches_are_counted_for_the_block_that_holds_them() {
    // A whole block with a matching record inside a record that doesn't match.
    let inner = Image::new(vec![Plan::data(&["m"])]).bytes();
    let hidden = &inner[106..];
    let target = Target::Exactly(109, hidden.len() as u64);
    let first = Target::Block(0);
    let blocks = vec![
        Plan::data(&[hidden]),
        Plan::naming(1, &[("", first), ("m", target)]),
    ];
    let folder = Folder::new();
    let file = folder.write("hidden.zs", &Image::new(blocks).bytes());
    let run = zs(&["explain", "--unchecked", &file, "--prefix", "m"]);
    assert_eq!(run.status, 0);
    let text = run.text();
    assert!(
        text.contains("106  level 0  \"\" to \"m\", 0 matches\n"),
        "{text}"
    );
    assert!(
        text.contains("109  level 0  \"m\" and up, 1 match\n"),
        "{text}"
    );
    assert!(text.ends_with("in vain: 1 on level 0\n"), "{text}");
}

#[test]
fn every_file_of_the_corpus_is_explained_or_refused() {
    let folder = Folder::new();
    let query = Query {
        start: b"b".to_vec(),
        ..Query::default()
    };
    for case in &Corpus::whole().files {
        let file = folder.write("case.zs", &case.bytes);
        let run = zs(&["explain", "--unchecked", &file, "--start", "b"]);
        let found = reader::search(&case.bytes, &query, 1000, 10_000);
        if run.status == 0 {
            assert_eq!(found.number, 0, "{}", case.name);
            let opened = &found.opened_list[..found.opened as usize];
            assert_eq!(shown_offsets(&run), opened, "{}", case.name);
            continue;
        }
        let checked = reader::check(&case.bytes, 10_000).number;
        let refused = |number: u64| {
            let words = format!(": refused {number}");
            let mut ends = [" at ", ": "].iter();
            ends.any(|end| run.err.contains(&format!("{words}{end}")))
        };
        assert!(refused(found.number) || refused(checked), "{}", case.name);
        assert!(checked != 0, "{}", case.name);
    }
}
