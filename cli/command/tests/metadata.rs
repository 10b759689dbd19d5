//! Metadata: refused where it is no JSON object, else shown as it is stored, in little memory, and never so that it steers a terminal.

use crate::support::{nest_metadata, shell, zs, Folder, Run, NO_JSON};
use zs_library::is_metadata;
use zs_reference::maker::Tree;

/// Length of long metadata.
const LONG: usize = 4 << 20;

/// A file with this metadata.
fn write_file(folder: &Folder, metadata: &[u8]) -> String {
    let mut tree = Tree::new(&[&["a"]]);
    tree.metadata = metadata.to_vec();
    folder.write("file.zs", &tree.bytes())
}

/// The line of `info` with the metadata.
fn metadata_line(folder: &Folder, metadata: &[u8]) -> String {
    let run = zs(&["info", &write_file(folder, metadata)]);
    assert_eq!((run.status, run.err.as_str()), (0, ""));
    let text = run.text();
    let line = text.lines().find(|line| line.contains("\"metadata\":"));
    line.expect("the metadata").to_string()
}

/// Runs the command on a terminal.
fn run_on_terminal(folder: &Folder, arguments: &str) -> Run {
    let line = format!("script -qec \"$ZS {arguments}\" /dev/null");
    shell(&line, folder)
}

#[test]
fn metadata_is_shown_as_it_is_stored() {
    let folder = Folder::new();
    let long_number = format!("{{\"a\": {}}}", "9".repeat(5000));
    for json in [
        "{}",
        "{\"\u{1f600}\": \"\u{7f}\\u0000\", \"\": 1, \"\":\t2}",
        r#"{"a": "\ud83d\ude00"}"#,
        r#"{"a": "\ud83d", "b": "\ude00", "c": "\ud83d\\ude00"}"#,
        r#"{"a": [1e308, -1.5E-999, 0e9999, 1e309]}"#,
        &long_number,
        &nest_metadata(64),
    ] {
        let due = format!("  \"metadata\": {json},");
        assert_eq!(metadata_line(&folder, json.as_bytes()), due);
        let alone = zs(&["info", "-m", &folder.name("file.zs")]);
        assert_eq!(alone.out, [json.as_bytes(), b"\n"].concat());
    }
}

#[test]
fn what_info_gives_is_one_json_object() {
    let folder = Folder::new();
    let metadata = "{\"a\":\r\n[\"}\u{e9}\\\"\", {}]}";
    let run = zs(&["info", &write_file(&folder, metadata.as_bytes())]);
    let object = run.out.strip_suffix(b"\n").expect("a line end");
    assert!(is_metadata(object), "{}", run.text());
}

#[test]
fn metadata_that_is_no_json_object_is_refused() {
    let folder = Folder::new();
    for (metadata, detail) in [
        (&b"{oops}"[..], NO_JSON),
        (b"{\"a\": \"\x1f\"}", NO_JSON),
        (b"{\"a\": 1}\xc2\xa0}", NO_JSON),
        (nest_metadata(65).as_bytes(), NO_JSON),
        (
            b"{\"\xff\": 1}",
            r#"it isn't UTF-8: after 2 bytes comes "\xff""#,
        ),
        (
            b"{} ",
            r#"it begins with "{" and ends with the white space " ""#,
        ),
        (b"", "it is empty"),
    ] {
        let file = write_file(&folder, metadata);
        let due = format!(
            "{file}: refused 9: the metadata isn't one JSON object from {{ to }}, in UTF-8 and nested at most 64 deep ({detail})\n"
        );
        let advice = "make the archive again with metadata that is one JSON object, with nothing before or after it\n";
        let run = zs(&["validate", &file]);
        assert_eq!((run.status, &run.text()), (1, &due));
        assert_eq!(run.err, format!("zs: what to do about 9: {advice}"));
        for words in [
            "info",
            "info -m",
            "dump",
            "dump --unchecked",
            "dump --unchecked --scan",
            "explain",
        ] {
            let run = shell(&format!("$ZS {words} '{file}'"), &folder);
            assert_eq!((run.status, run.out.len()), (1, 0), "{words}");
            assert_eq!(
                run.err,
                format!("zs: {due}zs: what to do: {advice}"),
                "{words}"
            );
        }
    }
}

#[test]
fn long_metadata_takes_little_memory() {
    let folder = Folder::new();
    let text = "\u{e9}".repeat(LONG / 2);
    write_file(&folder, format!("{{\"a\": \"{text}\"}}").as_bytes());
    for arguments in ["info", "info -m"] {
        let line = format!("ulimit -v 50000; exec $ZS {arguments} file.zs | wc -c");
        let run = shell(&line, &folder);
        assert_eq!(run.err, "");
        let written: usize = run.text().trim().parse().expect("a number");
        assert!((LONG..LONG + 1000).contains(&written), "{written}");
    }
}

#[test]
fn metadata_does_not_steer_a_terminal() {
    let folder = Folder::new();
    let metadata = "{\"a\":\r\"\u{9b}31m\u{7f}\u{e9}\",\t\n\"b\":1}";
    let shown = "{\"a\": \"\\u009b31m\\u007f\u{e9}\",\t\r\n\"b\":1}";
    let file = write_file(&folder, metadata.as_bytes());
    assert_eq!(zs(&["info", "-m", &file]).text(), format!("{metadata}\n"));
    let run = run_on_terminal(&folder, "info -m file.zs");
    assert_eq!((run.status, run.text()), (0, format!("{shown}\r\n")));

    let line = |json| format!("\"metadata\": {json},");
    assert!(zs(&["info", &file]).text().contains(&line(metadata)));
    let run = run_on_terminal(&folder, "info file.zs");
    assert!(run.text().contains(&line(shown)), "{}", run.text());
}
