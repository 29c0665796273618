//! What is printed: the table of rows with a bar for each ratio, and small tables with bars.

use crate::rows::Row;

/// What was measured for a row: instructions where they could be counted, and nanoseconds.
pub struct Measured {
    pub count: Option<(u64, u64)>,
    pub time: (f64, f64),
}

impl Measured {
    fn count_ratio(&self) -> Option<f64> {
        self.count.map(|(ours, theirs)| ours as f64 / theirs as f64)
    }

    fn time_ratio(&self) -> f64 {
        self.time.0 / self.time.1
    }
}

/// A tenth of the ratio for each character, up to 2.0; `|` stands at 1.10.
fn ratio_bar(ratio: f64) -> String {
    let length = (ratio * 10.0).round() as usize;
    let mut bar: String = (1..=20)
        .map(|k| {
            if k == 11 {
                '|'
            } else if k <= length {
                '#'
            } else {
                '.'
            }
        })
        .collect();
    bar.push(if length > 20 { '>' } else { ' ' });
    bar
}

/// A bar in proportion to the largest value.
pub fn bar(value: f64, largest: f64) -> String {
    "#".repeat((30.0 * value / largest).round() as usize)
}

pub fn print_rows(rows: &[Row], measured: &[Measured]) {
    println!(
        "{:<55}{:<6}{:>10}{:>10}{:>7}  {:<21}{:>10}{:>10}{:>7}",
        "call",
        "fill",
        "ours",
        "theirs",
        "ratio",
        "0     1.10|      2.0",
        "ours ns",
        "theirs",
        "ratio"
    );
    for (row, one) in rows.iter().zip(measured) {
        let (ours, theirs) = one.count.map_or(("-".into(), "-".into()), |(ours, theirs)| {
            (ours.to_string(), theirs.to_string())
        });
        let ratio = one.count_ratio().map_or("-".into(), |ratio| format!("{ratio:.2}"));
        println!(
            "{:<55}{:<6}{:>10}{:>10}{:>7}  {}{:>10.1}{:>10.1}{:>7.2}",
            row.name,
            row.fill,
            ours,
            theirs,
            ratio,
            ratio_bar(one.count_ratio().unwrap_or(one.time_ratio())),
            one.time.0,
            one.time.1,
            one.time_ratio()
        );
    }
}

/// Names the worst rows and says how many are above the mark.
pub fn print_worst(rows: &[Row], measured: &[Measured]) {
    let named = |at: usize| format!("{} ({})", rows[at].name, rows[at].fill);
    let by_count: Vec<f64> = measured.iter().filter_map(Measured::count_ratio).collect();
    let by_time: Vec<f64> = measured.iter().map(Measured::time_ratio).collect();
    for (what, ratios) in [("instructions", by_count), ("time", by_time)] {
        let Some((at, worst)) =
            ratios.iter().copied().enumerate().max_by(|one, two| one.1.total_cmp(&two.1))
        else {
            continue;
        };
        let above = ratios.iter().filter(|&&ratio| ratio > 1.10).count();
        let below = ratios.iter().filter(|&&ratio| ratio < 1.0).count();
        let all = ratios.len();
        println!(
            "By {what} the worst ratio is {worst:.2}, {}; {above} of {all} rows are above 1.10, {below} below 1.",
            named(at)
        );
    }
}
