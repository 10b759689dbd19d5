//! The C interface as compilers see it: include/zs.h, the static library, and programs that use them.

use std::path::{Path, PathBuf};
use std::process::{Command, Output};

use zs_library::refusals::{GREATEST, TABLE};

const C: &[&str] = &["-x", "c", "-std=c99"];
const CXX: &[&str] = &["-x", "c++", "-std=c++11"];
const STRICT: &[&str] = &["-Wall", "-Wextra", "-Werror", "-pedantic"];
const TWO_BLOCKS: &str = "crates/test_archives/data/two-blocks";

/// What `interface.c` prints of the calls on the example with two data blocks, of writing its records, of importing a phonebook, of stores, of
/// comparing, and of adding its records one by one.
const CALLS: &str = "\
check 0 0 3 4
work 0 0 0 0
read 0 0 2 0
results 476741369858 532575944706 0
search 0 0 2 3
opened 136 106 121 0
results 476741369858 532575944706 0
first 111 2 0 0
record 111 2 0 0
within 1 0 0 0
metadata 96 2 0 0
is metadata 1 1 0 0
write 0 0 154 0
the file 1 0 0 0
check 0 0 3 4
read 0 0 3 0
results 476741369858 532575944706 545460846593
write 31 0 0 0
import 0 0 32 0
names 97 0 98 11
write 0 0 176 0
check 0 0 3 2
import 0 0 32 0
import 31 0 0 0
import 32 0 0 0
import 32 0 0 0
import 34 0 0 0
import 33 0 0 0
write 0 0 154 0
store 0 8 0 0
store 106 48 0 0
store 8 98 0 0
store 0 8 0 0
unfinished 1 1 0 0
store 0 0 0 0
the file 1 0 0 0
unfinished 2 0 0 0
cut header 0 0 0 0
no block 106 0 0 0
no magic 0 0 0 0
write 31 0 0 0
refused 0 0 0 0
refused 0 0 0 0
refused 0 0 0 0
refused 0 0 0 0
refused 0 0 0 0
refused 0 0 0 0
refused 0 0 0 0
refused 0 0 0 0
refused 0 0 0 0
refused 0 0 0 0
compare 0 0 0 3
sum -1
list 1 109 1 2 1 2 127 1 0 1 1 129 1 1 0 0
work 0 0 0 0
compare 0 0 0 3
sum 1
list 1 109 1 1 2 1 127 1 1 0 2 129 1 0 1 0
show 1 109 1 0
record a
show 1 127 1 0
record c
show 2 129 1 0
record d
show 1 0 0 0
show 1 0 0 0
show 2 156 0 0
show 1 0 0 0
compare 0 0 0 0
sum 0
compare 8 0 1 0
sum 0
compare 8 0 2 0
sum 0
compare 18 0 1 0
sum 0
compare 0 0 0 3
sum 1
compare 35 0 0 0
sum 0
list 0 0 0 0 0 0 0 0 0 0 0 0 0 0
begin 30 0 0 0 0
begin 9 0 0 0 0
begin 31 0 0 0 0
begin 0 0 0 0 106
begin 28 0 0 0 106
close 28 0 0 0 106
finish 28 0 0 0 106
add 31 0 0 0 106
add 0 0 1 109 118
add 0 0 2 111 121
add 0 0 3 124 134
add 0 0 4 127 136
add 29 0 4 127 136
close 0 0 4 127 136
close 28 0 4 127 136
unfinished 2 0 0 0
finish 31 0 4 127 136
finish 0 0 4 127 154
finish 28 0 4 127 154
add 28 0 4 127 154
the file 1 0 0 0
null file 3 0 0 0
work 0 0 0 0
null file 3 0 0 0
null file 3 0 0 0
null file 0 0 0 0
null file 1 0 0 0
null file 0 0 0 0
null work 18 0 0 0
null stop 0 0 0 0
null stop 0 0 0 1
null results 27 0 0 0
null results 27 0 0 0
null opened 26 0 0 0
null metadata 0 0 0 0
null metadata 9 0 0 0
null records 28 0 0 0
null output 31 0 0 0
null all 30 0 0 0
null dump 0 0 0 0
null output 31 0 0 0
null all 32 0 0 0
null file 0 0 0 0
null file 0 0 0 0
null file 0 0 0 0
null file 0 0 0 0
null file 0 0 0 0
null first 3 0 1 0
sum 0
null second 3 0 2 0
sum 0
null work 18 0 1 0
sum 0
null list 0 0 0 0
sum 0
null all 3 0 1 0
sum 0
null first 1 0 0 0
null second 2 0 0 0
null second 1 0 0 0
null metadata 9 0 0 0 0
null output 31 0 0 0 0
null record 28 0 0 0 0
null output 28 0 0 0 0
null output 28 0 0 0 0
begin 0 0 0 0 106
null record 0 0 1 109 117
";

/// What `lookup.c` prints.
const CONTACTS: &str = "\
{\"about\": \"invented sample contacts\", \"record\": \"name TAB number\", \"text\": \"Latin-1\"}
Greta Mockley\t201-555-0152
Greta Mockley\t412-555-0193
Greta Mockley\t503-555-0132
Greta Mockley\t808-555-0136
Greta Mockley\t808-555-0191
";

/// What `backups.c` prints, with each byte as a character.
const DIFFERENCES: &str = "\
38 40 Echo Repeated\t201-555-0100
1 0 Greta Mockley\t617-555-0118
0 1 Jory Imagine\t412-555-0116
1 0 Lou\u{ff}se Fictional\t412-555-0120
0 1 Lou\u{ff}se Fictional\t412-555-0127
0 1 Lou\u{ff}se Placeholder\t808-555-0142
0 1 \u{ff}\u{ff}\u{ff}unlisted 59\t555-0159
4 records more
";

/// A path of the repository.
fn path(below: &str) -> PathBuf {
    Path::new(env!("CARGO_MANIFEST_DIR"))
        .join("../..")
        .join(below)
}

/// The folder with libzs.a, as build.rs finds it.
fn library() -> PathBuf {
    std::env::var("ZS_LIBRARY_DIR").map_or(path("target/staticlib"), PathBuf::from)
}

fn is_there(compiler: &str) -> bool {
    Command::new(compiler).arg("--version").output().is_ok()
}

/// Compiles a program of this folder and runs it.
fn run(compiler: &str, language: &[&str], source: &str, words: &[PathBuf]) -> Output {
    let process = std::process::id();
    let program = std::env::temp_dir().join(format!("zs-{process}-{compiler}-{source}.out"));
    let status = Command::new(compiler)
        .args(language)
        .args(STRICT)
        .arg("-I")
        .arg(path("include"))
        .arg(path("cli/library/tests").join(source))
        .args(["-x", "none"])
        .arg(library().join("libzs.a"))
        .arg("-o")
        .arg(&program)
        .status()
        .expect("a compiler");
    assert!(status.success(), "{compiler} {language:?} {source}");
    let output = Command::new(&program).args(words).output();
    std::fs::remove_file(&program).expect("the program");
    output.expect("a run")
}

/// What `interface.c` has to print: the calls, the version, two refusals by name, and every message.
fn due_lines() -> String {
    let version = env!("CARGO_PKG_VERSION");
    let first = format!("{CALLS}version {version}\nnames 1 1\nmessage 0 nothing is refused\n");
    let messages = TABLE
        .iter()
        .map(|row| format!("message {} {}\n", row.number, row.sentence));
    let last = format!("message {} no refusal has this number\n", GREATEST + 1);
    first + &messages.collect::<String>() + &last
}

/// The compiler `cc`, and others that are there.
#[test]
fn compilers_agree_on_the_two_block_example() {
    let compilers = [
        ("cc", C),
        ("gcc", C),
        ("clang", C),
        ("g++", CXX),
        ("clang++", CXX),
    ];
    for (compiler, language) in compilers {
        if compiler == "cc" || is_there(compiler) {
            let output = run(compiler, language, "interface.c", &[path(TWO_BLOCKS)]);
            let printed = String::from_utf8_lossy(&output.stdout);
            assert_eq!(printed, due_lines(), "{compiler}");
            assert!(output.status.success(), "{compiler}");
        }
    }
}

#[test]
fn the_example_finds_contacts() {
    let prefix = PathBuf::from("Greta Mockley\t");
    let output = run("cc", C, "lookup.c", &[path("samples/contacts.zs"), prefix]);
    assert_eq!(String::from_utf8_lossy(&output.stdout), CONTACTS);
    assert!(output.status.success());
}

#[test]
fn the_example_compares_backups() {
    let [older, newer] = ["samples/contacts-older.zs", "samples/contacts.zs"].map(path);
    let output = run("cc", C, "backups.c", &[older.clone(), newer]);
    let printed: String = output.stdout.iter().map(|byte| char::from(*byte)).collect();
    assert_eq!(printed, DIFFERENCES);
    assert!(output.status.success());
    // So many differences that the first list is too short.
    let output = run("cc", C, "backups.c", &[older, path("samples/small.zs")]);
    let printed = String::from_utf8_lossy(&output.stdout);
    assert!(printed.lines().count() > 1000, "{printed}");
    assert!(printed.ends_with("\n-1482 records more\n"), "{printed}");
}
