//! The tables, as plain text and as Markdown, and what they say about the bar.

use crate::forecast::ForecastTimes;
use crate::index::{Beside, IndexTimes};
use crate::inputs::{is_hostile, is_larger, NORMAL};
use crate::machine;
use crate::processes::Processes;
use crate::sides::{Compared, Timed};
use crate::statistics::Spread;

/// One input with all that was measured.
pub struct Row {
    pub name: String,
    pub about: String,
    pub timed: Timed,
    /// None where the table is larger.
    pub index: Option<IndexTimes>,
    /// None where the table is larger.
    pub forecast: Option<ForecastTimes>,
    /// None where the table is larger.
    pub peaks: Option<Peaks>,
    /// Of saves.
    pub processes: Processes,
}

/// Of memory, in bytes.
pub struct Peaks {
    pub ours: u64,
    pub rust: u64,
}

/// The Rust takes at least so many times as long as we do.
const FASTER: f64 = 2.0;
/// A byte of a hostile file takes at most so many times as long as one of the normal save.
const HOSTILE: f64 = 10.0;
/// A byte of the largest save takes at most so many times as long as one of the smallest: linear
/// but for caches and noise.
const LINEAR: f64 = 1.25;

/// The longest call on a file with a larger table takes at most so many seconds.
const LONGEST: f64 = 3.0;

pub struct Table {
    pub heads: Vec<&'static str>,
    /// How many columns in front hold words and not numbers.
    pub words: usize,
    pub lines: Vec<Vec<String>>,
}

/// A title and its table.
pub type Section = (&'static str, Table);

impl Table {
    fn plain(&self) -> String {
        let heads: Vec<String> = self.heads.iter().map(|head| head.to_string()).collect();
        let mut widths = vec![0; heads.len()];
        for line in self.lines.iter().chain([&heads]) {
            for (width, cell) in widths.iter_mut().zip(line) {
                *width = (*width).max(cell.chars().count());
            }
        }
        let mut text = String::new();
        for line in [&heads].into_iter().chain(&self.lines) {
            let mut shown = String::new();
            for (column, (cell, width)) in line.iter().zip(&widths).enumerate() {
                if column < self.words {
                    shown += &format!("{cell:width$}  ");
                } else {
                    shown += &format!("{cell:>width$}  ");
                }
            }
            text += shown.trim_end();
            text += "\n";
        }
        text
    }

    fn markdown(&self) -> String {
        let mut text = format!("| {} |\n|", self.heads.join(" | "));
        for column in 0..self.heads.len() {
            text += if column < self.words { "---|" } else { "---:|" };
        }
        text += "\n";
        for line in &self.lines {
            text += &format!("| {} |\n", line.join(" | "));
        }
        text
    }
}

/// With commas between groups of three digits.
fn grouped(number: u64) -> String {
    let digits = number.to_string();
    let mut text = String::new();
    for (place, digit) in digits.chars().enumerate() {
        if place > 0 && (digits.len() - place).is_multiple_of(3) {
            text.push(',');
        }
        text.push(digit);
    }
    text
}

/// Three digits that count, and all in front of the point.
fn rounded(number: f64) -> String {
    let places = match number.abs() {
        n if n >= 99.95 => 0,
        n if n >= 9.995 => 1,
        _ => 2,
    };
    format!("{number:.places$}")
}

fn spread(spread: Spread) -> String {
    format!(
        "{} ({} to {})",
        rounded(spread.median),
        rounded(spread.least),
        rounded(spread.most)
    )
}

fn per_byte(time: Spread, bytes: usize) -> f64 {
    time.median * 1e9 / bytes as f64
}

/// With a column of a number that both calls have.
fn times(rows: &[&Row], head: &'static str, number: fn(&Timed) -> usize) -> Table {
    let mut lines = Vec::new();
    for row in rows {
        let timed = &row.timed;
        let calls: [(&str, &Compared); 2] = [("reading", &timed.reading), ("text", &timed.text)];
        for (call, compared) in calls {
            lines.push(vec![
                row.name.clone(),
                call.into(),
                grouped(timed.bytes as u64),
                grouped(number(timed) as u64),
                spread(compared.ours.times(1e3)),
                spread(compared.rust.times(1e3)),
                rounded(per_byte(compared.ours, timed.bytes)),
                rounded(per_byte(compared.rust, timed.bytes)),
                spread(compared.ratio),
            ]);
        }
    }
    Table {
        heads: vec![
            "input",
            "call",
            "bytes",
            head,
            "ours, ms",
            "Rust, ms",
            "ours, ns/byte",
            "Rust, ns/byte",
            "Rust / ours",
        ],
        words: 2,
        lines,
    }
}

fn processes(rows: &[Row]) -> Table {
    let line = |row: &Row, what: &str, compared: &Compared| {
        vec![
            row.name.clone(),
            what.into(),
            spread(compared.ours.times(1e3)),
            spread(compared.rust.times(1e3)),
            spread(compared.ratio),
        ]
    };
    let of = |row: &Row| -> Vec<Vec<String>> {
        let all = row.processes.iter();
        all.map(|(what, compared)| line(row, what, compared))
            .collect()
    };
    Table {
        heads: vec!["input", "process", "ours, ms", "Rust, ms", "Rust / ours"],
        words: 2,
        lines: rows.iter().flat_map(of).collect(),
    }
}

/// The calls that read the whole file.
fn index(rows: &[Row]) -> Table {
    let mut lines = Vec::new();
    for row in rows {
        let Some(index) = &row.index else {
            continue;
        };
        let IndexTimes {
            write, check, once, ..
        } = index;
        let calls: [(&str, &Beside); 3] = [("write", write), ("check", check), ("once", once)];
        for (call, beside) in calls {
            lines.push(vec![
                row.name.clone(),
                call.into(),
                grouped(row.timed.bytes as u64),
                grouped(index.bytes as u64),
                spread(beside.time.times(1e3)),
                rounded(per_byte(beside.time, row.timed.bytes)),
                spread(beside.ratio),
            ]);
        }
    }
    Table {
        heads: vec![
            "input",
            "call",
            "bytes",
            "index bytes",
            "ms",
            "ns/byte",
            "call / reading",
        ],
        words: 2,
        lines,
    }
}

fn look_ups(rows: &[Row]) -> Table {
    let line = |row: &Row| {
        let index = row.index.as_ref()?;
        Some(vec![
            row.name.clone(),
            grouped(row.timed.bytes as u64),
            spread(index.field.times(1e3)),
            spread(index.look_up.times(1e6)),
            spread(index.ratio),
        ])
    };
    Table {
        heads: vec![
            "input",
            "bytes",
            "field call, ms",
            "look-up, µs",
            "field call / look-up",
        ],
        words: 1,
        lines: rows.iter().filter_map(line).collect(),
    }
}

fn forecast(rows: &[Row]) -> Table {
    let line = |row: &Row| {
        let forecast = row.forecast.as_ref()?;
        Some(vec![
            row.name.clone(),
            grouped(row.timed.bytes as u64),
            spread(forecast.time.times(1e3)),
            rounded(per_byte(forecast.time, row.timed.bytes)),
            spread(forecast.to_measuring),
            spread(forecast.to_text),
        ])
    };
    Table {
        heads: vec![
            "input",
            "bytes",
            "ms",
            "ns/byte",
            "forecast / text without room",
            "forecast / text",
        ],
        words: 1,
        lines: rows.iter().filter_map(line).collect(),
    }
}

fn memory(rows: &[Row]) -> Table {
    let mega = |bytes: u64| rounded(bytes as f64 / 1e6);
    let lines = rows
        .iter()
        .filter_map(|row| {
            let peaks = row.peaks.as_ref()?;
            Some(vec![
                row.name.clone(),
                mega(row.timed.bytes as u64),
                mega(row.timed.text_bytes as u64),
                mega(peaks.ours),
                mega(peaks.rust),
                rounded(peaks.rust as f64 / peaks.ours as f64),
            ])
        })
        .collect();
    Table {
        heads: vec![
            "input",
            "file, MB",
            "text, MB",
            "ours, peak MB",
            "Rust, peak MB",
            "Rust / ours",
        ],
        words: 1,
        lines,
    }
}

fn inputs(rows: &[Row]) -> Table {
    Table {
        heads: vec!["input", "what it is"],
        words: 2,
        lines: rows
            .iter()
            .map(|row| vec![row.name.clone(), row.about.clone()])
            .collect(),
    }
}

fn verdict(met: bool) -> String {
    if met { "met" } else { "not met" }.into()
}

type Call = (&'static str, fn(&Timed) -> &Compared);
const CALLS: [Call; 2] = [
    ("reading", |timed| &timed.reading),
    ("text", |timed| &timed.text),
];

/// The bar against the rows that were measured; what needs others is left out.
fn bar(rows: &[Row]) -> Table {
    let mut lines = Vec::new();
    let find = |name: &str| rows.iter().find(|row| row.name == name);
    let normal = find(NORMAL);
    for (call, of) in CALLS {
        if let Some(normal) = normal {
            let found = of(&normal.timed).ratio.median;
            lines.push(vec![
                format!("{call}, {NORMAL}: times as fast as the Rust"),
                format!("at least {FASTER}"),
                rounded(found),
                verdict(found >= FASTER),
            ]);
        }
        if let (Some(small), Some(large)) = (find("save-1"), find("save-16")) {
            let cost = |row: &Row| per_byte(of(&row.timed).ours, row.timed.bytes);
            let found = cost(large) / cost(small);
            lines.push(vec![
                format!("{call}: a byte of save-16 to one of save-1"),
                format!("at most {LINEAR}"),
                rounded(found),
                verdict(found <= LINEAR),
            ]);
        }
    }
    if let Some(normal) = normal {
        for row in rows.iter().filter(|row| is_hostile(&row.name)) {
            for (call, of) in CALLS {
                let cost = |row: &Row| per_byte(of(&row.timed).ours, row.timed.bytes);
                let found = cost(row) / cost(normal);
                lines.push(vec![
                    format!("{call}, {}: a byte to one of {NORMAL}", row.name),
                    format!("at most {HOSTILE}"),
                    rounded(found),
                    verdict(found <= HOSTILE),
                ]);
            }
        }
    }
    for (call, of) in CALLS {
        let larger = rows.iter().filter(|row| is_larger(&row.name));
        let seconds = |row: &Row| of(&row.timed).ours.median;
        if let Some(longest) = larger.max_by(|a, b| seconds(a).total_cmp(&seconds(b))) {
            let found = seconds(longest);
            lines.push(vec![
                format!(
                    "{call}, {}, the longest with a larger table: seconds",
                    longest.name
                ),
                format!("at most {LONGEST}"),
                rounded(found),
                verdict(found <= LONGEST),
            ]);
        }
    }
    Table {
        heads: vec!["bar", "wanted", "found", ""],
        words: 2,
        lines,
    }
}

/// The tables with their titles; one without a line is left out.
fn sections(rows: &[Row]) -> Vec<Section> {
    let (larger, others): (Vec<&Row>, Vec<&Row>) =
        rows.iter().partition(|row| is_larger(&row.name));
    let all = [
        ("Inputs", inputs(rows)),
        (
            "Times",
            times(&others, "text bytes", |timed| timed.text_bytes),
        ),
        ("Index", index(rows)),
        ("Look-ups by index", look_ups(rows)),
        ("Forecast", forecast(rows)),
        ("Whole processes", processes(rows)),
        ("Peak memory", memory(rows)),
        ("The bar", bar(rows)),
        (
            "Larger tables",
            times(&larger, "table, rows", |timed| timed.rows),
        ),
    ];
    let kept = all.into_iter().filter(|(_, table)| !table.lines.is_empty());
    kept.collect()
}

pub fn plain(rows: &[Row], rounds: usize) -> String {
    let head = format!(
        "{}\n{rounds} rounds in turns; median (least to most)\n",
        machine::line()
    );
    head + &plain_tables(&sections(rows))
}

pub fn plain_tables(sections: &[Section]) -> String {
    let shown = |(title, table): &Section| format!("\n{title}\n{}", table.plain());
    sections.iter().map(shown).collect()
}

pub fn markdown(rows: &[Row], rounds: usize) -> String {
    let head = format!("{}; {rounds} rounds in turns.\n", machine::line());
    head + &markdown_tables(&sections(rows))
}

pub fn markdown_tables(sections: &[Section]) -> String {
    let shown = |(title, table): &Section| format!("\n### {title}\n\n{}", table.markdown());
    sections.iter().map(shown).collect()
}

#[cfg(test)]
mod tests {
    use super::*;
    use crate::inputs::is_save;

    fn flat(median: f64) -> Spread {
        Spread {
            median,
            least: median,
            most: median,
        }
    }

    /// A million bytes; the Rust takes so many times as long.
    fn row(name: &str, seconds: f64, ratio: f64) -> Row {
        let compared = || Compared {
            ours: flat(seconds),
            rust: flat(seconds * ratio),
            ratio: flat(ratio),
        };
        let beside = || Beside {
            time: flat(seconds),
            ratio: flat(1.5),
        };
        Row {
            name: name.into(),
            about: "made up".into(),
            timed: Timed {
                bytes: 1_000_000,
                text_bytes: 2_000_000,
                rows: 58_823,
                reading: compared(),
                text: compared(),
            },
            index: (!is_larger(name)).then(|| IndexTimes {
                bytes: 12_000,
                write: beside(),
                check: beside(),
                once: beside(),
                field: flat(seconds),
                look_up: flat(seconds / 4.0),
                ratio: flat(4.0),
            }),
            forecast: (!is_larger(name)).then(|| ForecastTimes {
                time: flat(seconds),
                to_measuring: flat(1.0),
                to_text: flat(0.5),
            }),
            peaks: (!is_larger(name)).then_some(Peaks {
                ours: 4_000_000,
                rust: 8_000_000,
            }),
            processes: match is_save(name) {
                true => vec![("command", compared()), ("crate", compared())],
                false => Vec::new(),
            },
        }
    }

    #[test]
    fn numbers() {
        assert_eq!(grouped(0), "0");
        assert_eq!(grouped(999), "999");
        assert_eq!(grouped(1_000), "1,000");
        assert_eq!(grouped(16_777_216), "16,777,216");
        assert_eq!(rounded(1234.4), "1234");
        assert_eq!(rounded(99.96), "100");
        assert_eq!(rounded(12.345), "12.3");
        assert_eq!(rounded(1.234), "1.23");
        assert_eq!(spread(flat(2.0)), "2.00 (2.00 to 2.00)");
    }

    #[test]
    fn the_bar_is_met_or_not() {
        let verdicts = |rows: &[Row]| -> Vec<String> {
            bar(rows).lines.iter().map(|line| line[3].clone()).collect()
        };
        assert_eq!(verdicts(&[row("save-7", 0.01, 2.0)]), ["met", "met"]);
        assert_eq!(
            verdicts(&[row("save-7", 0.01, 1.9)]),
            ["not met", "not met"]
        );
        let slow = [row("save-7", 0.01, 2.0), row("names", 0.2, 1.0)];
        assert_eq!(verdicts(&slow), ["met", "met", "not met", "not met"]);
        let curved = [row("save-1", 0.01, 1.0), row("save-16", 0.02, 1.0)];
        assert_eq!(verdicts(&curved), ["not met", "not met"]);
        assert!(verdicts(&[row("names", 0.2, 1.0)]).is_empty());
        let larger = [row("rows-random", 2.9, 1.0), row("blocks-random", 3.1, 1.0)];
        assert_eq!(verdicts(&larger[..1]), ["met", "met"]);
        assert_eq!(verdicts(&larger), ["not met", "not met"]);
    }

    #[test]
    fn tables_have_a_cell_for_each_head() {
        let rows = [
            row("save-7", 0.01, 2.0),
            row("names", 0.2, 1.0),
            row("rows-random", 0.3, 1.0),
        ];
        let sections = sections(&rows);
        assert_eq!(sections.len(), 9);
        for (_, table) in sections {
            assert!(table
                .lines
                .iter()
                .all(|line| line.len() == table.heads.len()));
            let lines = table.markdown().lines().count();
            assert_eq!(lines, 2 + table.lines.len());
            assert_eq!(table.plain().lines().count(), 1 + table.lines.len());
        }
    }

    #[test]
    fn larger_tables_stand_apart() {
        let titles = |rows: &[Row]| -> Vec<&str> {
            let sections = sections(rows);
            sections.into_iter().map(|(title, _)| title).collect()
        };
        let larger = || row("rows-random", 0.3, 1.0);
        let of_larger = ["Inputs", "The bar", "Larger tables"];
        assert_eq!(titles(&[larger()]), of_larger);
        assert_eq!(
            titles(&[row("names", 0.2, 1.0)]),
            [
                "Inputs",
                "Times",
                "Index",
                "Look-ups by index",
                "Forecast",
                "Peak memory"
            ]
        );
        for (title, table) in sections(&[row("save-7", 0.01, 2.0), larger()]) {
            let found = table
                .lines
                .iter()
                .any(|line| line[0].contains("rows-random"));
            assert_eq!(found, of_larger.contains(&title));
        }
        let shown = markdown(&[larger()], 1);
        assert!(shown.contains("\n### Larger tables\n\n| input | call | bytes | table, rows |"));
        assert!(shown.contains("\n| rows-random | text | 1,000,000 | 58,823 |"));
    }

    #[test]
    fn calls_about_an_index() {
        let shown = markdown(&[row("save-7", 0.01, 2.0)], 1);
        let write = "\n| save-7 | write | 1,000,000 | 12,000 | 10.0 (10.0 to 10.0) | 10.0 | 1.50 (1.50 to 1.50) |\n";
        assert!(shown.contains(write), "{shown}");
        let look_up = "\n| save-7 | 1,000,000 | 10.0 (10.0 to 10.0) | 2500 (2500 to 2500) | 4.00 (4.00 to 4.00) |\n";
        assert!(shown.contains(look_up), "{shown}");
    }

    #[test]
    fn forecasts() {
        let shown = markdown(&[row("save-7", 0.01, 2.0)], 1);
        let line = "\n| save-7 | 1,000,000 | 10.0 (10.0 to 10.0) | 10.0 | 1.00 (1.00 to 1.00) | 0.50 (0.50 to 0.50) |\n";
        assert!(shown.contains(line), "{shown}");
    }

    #[test]
    fn whole_processes_of_saves() {
        let shown = markdown(&[row("save-7", 0.01, 2.0), row("names", 0.2, 1.0)], 1);
        assert!(shown.contains(
            "\n| save-7 | command | 10.0 (10.0 to 10.0) | 20.0 (20.0 to 20.0) | 2.00 (2.00 to 2.00) |\n| save-7 | crate |"
        ));
        assert!(!shown.contains("| names | command |"));
    }
}
