//! The page of measurements and the script that makes them, as far as they can be tested without
//! measuring: no two rows of the page have one label, the rows where ours is slower are named, and
//! the script knows its options.

use std::collections::HashSet;
use std::path::{Path, PathBuf};
use std::process::{Command, Output};

fn top() -> PathBuf {
    Path::new(env!("CARGO_MANIFEST_DIR")).join("../..")
}

/// A row of a table: its label and the figures behind it.
struct Row {
    label: String,
    figures: Vec<f64>,
}

/// The rows of a part of the page: lines in fences with two figures or more, in columns that are
/// two blanks or more apart. Where the second column is no figure, it belongs to the label.
fn rows(page: &str) -> Vec<Row> {
    let fenced = page.split("\n```").skip(1).step_by(2);
    let columns = |line: &str| -> Vec<String> {
        line.split("  ")
            .map(|word| word.trim().to_string())
            .filter(|word| !word.is_empty())
            .collect()
    };
    let row = |line: &str| {
        let columns = columns(line);
        let names = columns.iter().take_while(|word| word.parse::<f64>().is_err()).count();
        let figures: Vec<f64> = columns.iter().filter_map(|word| word.parse().ok()).collect();
        let row = Row { label: columns[..names].join(" "), figures };
        (names > 0 && row.figures.len() > 1).then_some(row)
    };
    fenced.flat_map(str::lines).filter_map(row).collect()
}

fn page() -> String {
    std::fs::read_to_string(top().join("docs/SPEED.md")).unwrap()
}

#[test]
fn no_two_rows_have_one_label() {
    let rows = rows(&page());
    assert!(rows.len() > 100, "only {} rows were found", rows.len());
    let mut labels = HashSet::new();
    for row in &rows {
        assert!(labels.insert(&row.label), "two rows are {:?}", row.label);
    }
}

#[test]
fn the_slower_rows_of_growth_are_counted_in_the_text() {
    let page = page();
    let growth = page.split_once("\n## Growth").unwrap().1;
    let rows = rows(growth);
    assert_eq!(rows.len(), 30);
    let slower = rows.iter().filter(|row| row.figures[0] > row.figures[1]).count();
    let words = ["no", "one", "two", "three", "four", "five", "six", "seven", "eight"];
    let word = words.get(slower).expect("so many slower rows need other words");
    assert!(
        growth.to_lowercase().contains(&format!("in {word} of these rows ours is slower")),
        "{slower} rows are slower, and the text doesn't say so"
    );
}

fn bench(words: &[&str]) -> Output {
    Command::new(top().join("bench")).args(words).output().unwrap()
}

#[test]
fn the_script_tells_its_options_and_refuses_others() {
    let help = bench(&["--help"]);
    let said = String::from_utf8_lossy(&help.stdout);
    assert_eq!(help.status.code(), Some(0));
    for option in ["--quick", "--counts", "--keep FOLDER", "--help"] {
        assert!(said.contains(option), "{option} isn't in {said}");
    }
    assert!(help.stderr.is_empty());
    for words in [&["--nonsense"][..], &["--quick", "more"], &["--keep"], &["--keep", ""], &[""]] {
        let refused = bench(words);
        assert_eq!(refused.status.code(), Some(2), "{words:?}");
        assert!(refused.stdout.is_empty(), "{words:?}");
        assert!(String::from_utf8_lossy(&refused.stderr).contains(&*said), "{words:?}");
    }
}
