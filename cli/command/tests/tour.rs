//! The tour in README.md shows what the command does.

use std::fs;

use crate::support::{shell, Folder, CONTACTS, OLDER, PHONEBOOK};

const README: &str = concat!(env!("CARGO_MANIFEST_DIR"), "/../../README.md");

/// A command that is shown, and what it gives.
struct Step {
    command: String,
    shown: String,
}

/// The steps of the section on the command.
fn steps() -> Vec<Step> {
    let text = fs::read_to_string(README).expect("README.md");
    let (_, section) = text.split_once("## The command `zs`").expect("a section");
    let (section, _) = section.split_once("\n## ").expect("a section after it");
    let mut steps: Vec<Step> = Vec::new();
    for line in section.lines().filter_map(|line| line.strip_prefix("    ")) {
        match line.strip_prefix("$ ") {
            Some(command) => steps.push(Step {
                command: command.replacen("zs ", "$ZS ", 1),
                shown: String::new(),
            }),
            None => {
                let step = steps.last_mut().expect("a command first");
                step.shown.push_str(line);
                step.shown.push('\n');
            }
        }
    }
    steps
}

#[test]
fn every_step_gives_what_is_shown() {
    let folder = Folder::new();
    let mut sample = fs::read(CONTACTS).expect("the sample");
    folder.write("contacts.zs", &sample);
    sample[4998] ^= 1;
    folder.write("damaged.zs", &sample);
    for (name, sample) in [
        ("contacts-older.zs", OLDER),
        ("sim-phonebook.adn", PHONEBOOK),
    ] {
        fs::copy(sample, folder.name(name)).expect("the sample");
    }
    let steps = steps();
    assert!(steps.len() >= 18, "{}", steps.len());
    for Step { command, shown } in steps {
        if let Some(name) = command.strip_prefix("cat ") {
            folder.write(name, shown.as_bytes());
        }
        let run = shell(&format!("{command} 2>&1"), &folder);
        assert_eq!(run.text(), shown, "{command}");
    }
}
