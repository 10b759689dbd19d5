//! Progress of long work: what is done, the length of the file and the time so far, on standard error and only on a terminal.

use std::path::Path;
use std::time::Duration;

use indicatif::{BinaryBytes, ProgressBar, ProgressStyle};

use crate::escapes::escape_name;

/// Work on shorter files is over too soon to be shown.
const LONG: usize = 1 << 20;
/// Between two pictures of the spinner.
const TURN: Duration = Duration::from_millis(100);

/// Does the work, and shows meanwhile what is done.
pub fn show_while<T>(what: &str, path: &Path, length: usize, work: impl FnOnce() -> T) -> T {
    if length < LONG || !console::user_attended_stderr() {
        return work();
    }
    let spinner = ProgressBar::new_spinner();
    if let Ok(style) = ProgressStyle::with_template("{spinner} {msg}, {elapsed}") {
        spinner.set_style(style);
    }
    let length = BinaryBytes(length as u64);
    spinner.set_message(format!("{what} {} ({length})", escape_name(path)));
    spinner.enable_steady_tick(TURN);
    let answer = work();
    spinner.finish_and_clear();
    answer
}
