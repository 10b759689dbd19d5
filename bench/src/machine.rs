//! What was measured on and with.

use crate::others::version;

/// Names the processor and the versions of the programs, in Markdown.
pub fn describe() -> String {
    let about = std::fs::read_to_string("/proc/cpuinfo").unwrap_or_default();
    let field = |name: &str| {
        let line = about.lines().find(|line| line.starts_with(name));
        let value = line.and_then(|line| line.split(": ").nth(1));
        value.unwrap_or("unknown").to_string()
    };
    let flags = field("flags");
    let has = |flag: &str| {
        if flags.split(' ').any(|word| word == flag) {
            "with"
        } else {
            "without"
        }
    };
    let cores = about
        .lines()
        .filter(|line| line.starts_with("processor"))
        .count();
    format!(
        "Measured on: {}, {cores} processors, {} instructions for SHA-256 and {} carry-less multiplication.\n\nWith: {}.",
        field("model name"),
        has("sha_ni"),
        has("pclmulqdq"),
        versions().join("; ")
    )
}

/// The versions of the compiler and of the other programs.
fn versions() -> [String; 6] {
    let sqlite3 = version("sqlite3", "--version");
    [
        version("rustc", "--version"),
        format!("sqlite3 {}", sqlite3.split(' ').next().unwrap_or("")),
        version("xz", "--version"),
        version("openssl", "version"),
        version("sha256sum", "--version"),
        version("look", "--version"),
    ]
}
