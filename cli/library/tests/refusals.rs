//! The table of refusals: its own rules, and README.md and include/zs.h, which repeat it.

use std::collections::BTreeSet;

use zs_library::refusals::{find, numbers, Call, GREATEST, TABLE};

const README: &str = concat!(env!("CARGO_MANIFEST_DIR"), "/../../README.md");
const HEADER: &str = concat!(env!("CARGO_MANIFEST_DIR"), "/../../include/zs.h");

#[test]
fn numbers_rise_and_sentences_differ() {
    assert!(TABLE.windows(2).all(|pair| pair[0].number < pair[1].number));
    let sentences: BTreeSet<&str> = TABLE.iter().map(|row| row.sentence).collect();
    assert_eq!(sentences.len(), TABLE.len());
    for row in TABLE {
        assert_eq!(find(row.number), Some(row));
        assert!(!row.calls.is_empty());
    }
    assert_eq!((find(0), find(GREATEST + 1)), (None, None));
}

#[test]
fn readme_has_the_table() {
    let section = refusals_section();
    let given: Vec<&str> = section
        .lines()
        .filter(|line| line.starts_with('|'))
        .collect();
    let mut due = vec![
        String::from("| number | meaning | place | what to do |"),
        String::from("|---|---|---|---|"),
    ];
    for row in TABLE {
        let cells = [
            row.number.to_string().as_str(),
            row.sentence,
            row.place,
            row.advice,
        ]
        .join(" | ");
        assert_eq!(cells.matches('|').count(), 3, "{cells}");
        due.push(format!("| {cells} |"));
    }
    for (given, due) in given.iter().zip(&due) {
        assert_eq!(given, due);
    }
    assert_eq!(given.len(), due.len());
}

/// Lines `ZS_NAME = 1,` and `case ZS_NAME: return "sentence";`.
#[test]
fn zs_h_has_a_name_and_the_sentence_for_each_number() {
    let text = std::fs::read_to_string(HEADER).expect("include/zs.h");
    let lines = || text.lines().map(str::trim);
    let names: Vec<(&str, &str)> = lines()
        .filter(|line| line.starts_with("ZS_"))
        .filter_map(|line| line.trim_end_matches(',').split_once(" = "))
        .collect();
    let cases: Vec<&str> = lines()
        .filter_map(|line| line.strip_prefix("case "))
        .collect();
    assert_eq!((names[0], names.len()), (("ZS_OK", "0"), TABLE.len() + 1));
    for (row, (name, number)) in TABLE.iter().zip(&names[1..]) {
        assert_eq!(*number, row.number.to_string());
        let due = format!("{name}: return \"{}\";", row.sentence);
        assert!(cases.contains(&due.as_str()), "{due}");
    }
}

#[test]
fn readme_says_which_call_gives_which_numbers() {
    let words = |call| in_words(&numbers(call).collect::<Vec<_>>());
    let due = format!(
        "The check gives {}, reading front to back {}, the search {}, writing {}, importing a SIM phonebook {}, comparing {}; \
         of a session's steps begin {}, add {}, closing a block {}, and finish {}.",
        words(Call::Check),
        words(Call::Read),
        words(Call::Search),
        words(Call::Write),
        words(Call::ImportSim),
        words(Call::Compare),
        words(Call::Begin),
        words(Call::Add),
        words(Call::Close),
        words(Call::Finish)
    );
    assert!(refusals_section().contains(&due), "{due}");
}

/// README.md from the heading on, up to the next one.
fn refusals_section() -> String {
    let text = std::fs::read_to_string(README).expect("README.md");
    let (_, after) = text
        .split_once("\n## Refusals\n")
        .expect("a section on refusals");
    let section = after.split("\n## ").next();
    section.unwrap_or(after).to_string()
}

/// Rising numbers as a list, three or more that follow one another as `1 to 3`.
fn in_words(numbers: &[u64]) -> String {
    let mut runs: Vec<(u64, u64)> = Vec::new();
    for number in numbers {
        match runs.last_mut() {
            Some((_, last)) if *last + 1 == *number => *last = *number,
            _ => runs.push((*number, *number)),
        }
    }
    let mut words = Vec::new();
    for (first, last) in runs {
        if last - first > 1 {
            words.push(format!("{first} to {last}"));
        } else {
            words.extend((first..=last).map(|number| number.to_string()));
        }
    }
    let last = words.pop().unwrap_or_default();
    if words.is_empty() {
        return last;
    }
    format!("{} and {last}", words.join(", "))
}

#[test]
fn numbers_in_words() {
    assert_eq!(in_words(&[3]), "3");
    assert_eq!(in_words(&[1, 2]), "1 and 2");
    assert_eq!(in_words(&[1, 2, 3, 5, 7, 8]), "1 to 3, 5, 7 and 8");
}
