//! Arguments: values that begin with a dash, and mistakes that are named.

use crate::support::{zs, Folder, SMALL};
use zs_reference::maker::Tree;

#[test]
fn values_may_begin_with_a_dash() {
    let group: &[&str] = &["--b", "-a", "-b", "a"];
    let folder = Folder::new();
    let file = folder.write("dashes.zs", &Tree::new(&[group]).bytes());
    for (words, due) in [
        (&["--prefix", "-a"][..], "-a\n"),
        (&["--prefix", "--b"], "--b\n"),
        (&["--start", "-b"], "-b\na\n"),
        (&["--stop", "-a"], "--b\n"),
        (&["--prefix", "a", "--terminator", "-"], "a-"),
        (&["--prefix", "a", "--terminator", "--\\n"], "a--\n"),
    ] {
        let run = zs(&[&["dump", &file][..], words].concat());
        assert_eq!((run.status, run.text().as_str()), (0, due), "{}", run.err);
    }
    let run = zs(&["explain", &file, "--prefix", "-a"]);
    assert_eq!(run.status, 0, "{}", run.err);
}

#[test]
fn hints_about_dashes_work() {
    for words in [
        &["dump", SMALL, "-o", "-x"][..],
        &["dump", SMALL, "-o", "--x"],
        &["validate", "-x"],
    ] {
        let run = zs(words);
        assert_eq!((run.status, run.out.len()), (2, 0), "{words:?}");
        let hint = "A file whose name begins with a dash is given as ./-NAME";
        assert!(run.err.contains(hint), "{}", run.err);
        assert!(!run.err.contains("use '-- "), "{}", run.err);
    }
}

#[test]
fn values_that_are_none_of_those_allowed() {
    let numbers = "give a whole number from 0 to 18446744073709551615";
    for (words, says) in [
        (["--max-results", "-1"], numbers),
        (["--max-results", "1e3"], numbers),
        (["--max-results", "18446744073709551616"], numbers),
        (
            ["--length-prefixed", "-x"],
            "[possible values: uleb128, u64le]",
        ),
    ] {
        let run = zs(&[&["dump", SMALL][..], &words].concat());
        assert_eq!((run.status, run.out.len()), (2, 0), "{words:?}");
        assert!(run.err.contains(says), "{}", run.err);
    }
}
