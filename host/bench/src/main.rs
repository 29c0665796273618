//! Measures the proved store: row by row against an independent one, against SQLite, its space
//! and its growth. `--quick` takes less time, `--counts` makes only the first table,
//! `--keep FOLDER` keeps callgrind's files.

mod count;
mod exchange;
mod ffi;
mod growth;
mod rows;
mod sides;
mod sqlite;
mod states;
mod table;
mod time;
mod versus;
mod workload;
mod wrappers;

use std::path::PathBuf;
use std::time::Duration;

/// The processor's name, as the system tells it.
fn processor() -> String {
    let text = std::fs::read_to_string("/proc/cpuinfo").unwrap_or_default();
    let name = text.lines().find_map(|line| line.strip_prefix("model name")?.split_once(": "));
    name.map_or("an unknown processor".into(), |(_, name)| name.to_string())
}

/// Instructions of all rows, in a folder that is kept or removed.
fn counts(rows: usize, kept: Option<&String>) -> Option<Vec<(u64, u64)>> {
    if let Some(folder) = kept {
        return count::count(rows, &PathBuf::from(folder));
    }
    let folder = std::env::temp_dir().join(format!("jibcradle-bench-{}", std::process::id()));
    let counts = count::count(rows, &folder);
    let _ = std::fs::remove_dir_all(&folder);
    counts
}

/// The first part: all calls, by instructions and by time.
fn compare(rows: &[rows::Row], kept: Option<&String>, budget: Duration) {
    rows.iter().for_each(rows::Row::agree);
    println!(
        "Both stores agree in answers, journal, buffer and contents in all {} rows.",
        rows.len()
    );
    let counts = counts(rows.len(), kept);
    if counts.is_none() {
        println!("No instruction counts: valgrind could not be run.");
    }
    let measured: Vec<table::Measured> = rows
        .iter()
        .enumerate()
        .map(|(at, row)| table::Measured {
            count: counts.as_ref().map(|counts| counts[at]),
            time: time::time(row, budget),
        })
        .collect();
    println!("\n1. Each call: instructions (exact) and nanoseconds (best of many), ours and the independent store's\n");
    table::print_rows(rows, &measured);
    println!();
    table::print_worst(rows, &measured);
}

fn main() {
    let words: Vec<String> = std::env::args().skip(1).collect();
    if words.iter().any(|word| word == "--make-calls") {
        return count::child();
    }
    let rows = rows::rows();
    rows::expect_distinct(&rows);
    let only_counts = words.iter().any(|word| word == "--counts");
    let quick = only_counts || words.iter().any(|word| word == "--quick");
    let kept = words.iter().position(|word| word == "--keep").and_then(|at| words.get(at + 1));
    println!("One thread of {}.", processor());
    let budget = Duration::from_millis(if quick { 20 } else { 1_000 });
    compare(&rows, kept, budget);
    if only_counts {
        return;
    }
    println!("\n2. Against SQLite\n");
    let effort =
        versus::Effort { rounds: if quick { 3 } else { 30 }, synced: if quick { 50 } else { 300 } };
    versus::print(&effort);
    println!("\n3. Space\n");
    versus::print_space();
    println!("\n4. Growth");
    growth::print_all(budget);
}
