//! The instructions of each call on both sides, by valgrind's callgrind: they are the same in every
//! run, but for the seeds of the Rust's hash maps, and times on a shared machine are not.

use crate::arguments::Side;
use crate::inputs::{Input, NORMAL};
use crate::one_call::{rust_finds, Asked, Call, COMPARED, FORECAST, INDEX, LOOK_UPS};
use crate::report::{markdown_tables, plain_tables, Section, Table};
use crate::sides::{agreed, lent};
use crate::temporary::Temporary;
use sii_decode::{library, BsiiFile};
use std::io;
use std::path::Path;
use std::process::Command;

/// What was counted on one input.
struct Row {
    name: String,
    bytes: usize,
    /// Ours and the Rust's of `COMPARED`; the latter only if it reads the file.
    compared: [(u64, Option<u64>); 3],
    /// Of `INDEX`.
    index: [u64; 3],
    /// The mean of all look-ups.
    look_up: f64,
    /// Of `FORECAST`.
    forecast: [u64; 2],
}

impl Row {
    fn ours(&self, call: Call) -> u64 {
        let at = COMPARED.iter().position(|compared| *compared == call);
        self.compared[at.expect("it is compared")].0
    }

    fn per_byte(&self, number: u64) -> f64 {
        number as f64 / self.bytes as f64
    }
}

/// The number in what callgrind says.
fn collected(said: &str) -> Option<u64> {
    let mut lines = said.lines();
    let (_, number) = lines.find_map(|line| line.split_once("Collected :"))?;
    number.trim().parse().ok()
}

/// What valgrind counts, or says that has gone wrong.
fn counted_by(valgrind: &mut Command) -> Result<u64, String> {
    let answer = valgrind.output().map_err(|error| match error.kind() {
        io::ErrorKind::NotFound => "valgrind, which counts instructions, is not installed".into(),
        _ => format!("valgrind: {error}"),
    })?;
    let said = String::from_utf8_lossy(&answer.stderr);
    if !answer.status.success() {
        return Err(format!("valgrind: {}\n{}", answer.status, said.trim_end()));
    }
    // Nothing is counted in a program that was stripped of its names.
    let number = collected(&said).filter(|number| *number > 0);
    number.ok_or(format!("valgrind has counted nothing\n{}", said.trim_end()))
}

fn count(side: Side, call: Call, path: &Path, asked: &Asked) -> Result<u64, String> {
    let program = std::env::current_exe().map_err(|error| format!("this program: {error}"))?;
    let mut valgrind = Command::new("valgrind");
    valgrind
        // No file of what was counted where, and no pipe for a debugger.
        .args(["--tool=callgrind", "--callgrind-out-file=/dev/null"])
        .arg("--vgdb=no")
        .arg(format!("--toggle-collect={}", call.functions(side)))
        .arg(program)
        .args(["--one-call", side.name(), call.name()])
        .arg(path)
        .args([asked.words.to_string(), asked.room.to_string()])
        .args([&asked.block.to_string(), &asked.name]);
    let what = |what| format!("{}, {}: {what}", call.name(), side.name());
    counted_by(&mut valgrind).map_err(what)
}

/// The name of the first field, by the last definition of the prototype; an empty one without.
fn first_field(file: &[u8], table: &mut [u32], id: u32) -> String {
    let of = library::get_prototype(file, table, id);
    // Behind the name of the prototype stand the field's type, the length of its name, and that.
    let field = &file[(of.name_offset + of.name_len) as usize..];
    match field[4..].first_chunk().filter(|_| of.fields > 0) {
        Some(length) => {
            let name = &field[8..][..u32::from_le_bytes(*length) as usize];
            String::from_utf8_lossy(name).into_owned()
        }
        None => String::new(),
    }
}

/// What both sides are asked, how many look-ups there are, and whether the Rust reads the file: then
/// both have to say the same. The field call asks for the first field of the block in the middle.
fn prepared(file: &[u8]) -> Result<(Asked, u64, bool), String> {
    let (mut table, room) = lent(file)?;
    let ours = BsiiFile::parse(file).map_err(|refusal| refusal.to_string())?;
    let block = ours.block_count() / 2;
    let found = ours.block(block).map_err(|_| "it has no blocks")?;
    let asked = Asked {
        words: table.len(),
        room,
        block,
        name: first_field(file, &mut table, found.prototype_id),
    };
    let rust = oracle::parse(file);
    let unread = matches!(rust, Err(oracle::Fault::Version | oracle::Fault::Todo(_)));
    if !unread {
        agreed(file)?;
        let found = library::field_of(file, &mut table, block, asked.name.as_bytes());
        if rust.is_ok_and(|rust| rust_finds(&rust, &asked)) != (found.number == 0) {
            return Err("one side alone finds the field".into());
        }
    }
    Ok((asked, ours.block_count().min(LOOK_UPS), !unread))
}

fn row(input: &Input) -> Result<Row, String> {
    let file = (input.make)();
    let (asked, look_ups, is_read) = prepared(&file)?;
    let written = Temporary::new(&file).map_err(|error| format!("a temporary file: {error}"))?;
    let of = |side, call| count(side, call, written.path(), &asked);
    let mut compared = [(0, None); 3];
    for (call, (ours, rust)) in COMPARED.into_iter().zip(&mut compared) {
        *ours = of(Side::Ours, call)?;
        if is_read {
            *rust = Some(of(Side::Rust, call)?);
        }
    }
    let mut index = [0; 3];
    for (call, ours) in INDEX.into_iter().zip(&mut index) {
        *ours = of(Side::Ours, call)?;
    }
    let mut forecast = [0; 2];
    for (call, ours) in FORECAST.into_iter().zip(&mut forecast) {
        *ours = of(Side::Ours, call)?;
    }
    Ok(Row {
        name: input.name.clone(),
        bytes: file.len(),
        compared,
        index,
        look_up: of(Side::Ours, Call::LookUp)? as f64 / look_ups as f64,
        forecast,
    })
}

/// So many digits that count, and all in front of the point.
fn digits(count: i32, number: f64) -> String {
    let places = (count - 1 - number.log10().floor() as i32).max(0);
    format!("{number:.*}", places as usize)
}

fn million(number: u64) -> String {
    digits(4, number as f64 / 1e6)
}

fn ratio(above: f64, below: f64) -> String {
    digits(3, above / below)
}

/// Where there is nothing to compare with.
const NONE: &str = "-";

fn compared(rows: &[Row]) -> Table {
    let normal = rows.iter().find(|row| row.name == NORMAL);
    let mut lines = Vec::new();
    for row in rows {
        for (call, (ours, rust)) in COMPARED.into_iter().zip(row.compared) {
            let a_byte = row.per_byte(ours);
            let to_normal = normal.map(|it| ratio(a_byte, it.per_byte(it.ours(call))));
            let to_ours = rust.map(|rust| ratio(rust as f64, ours as f64));
            lines.push(vec![
                row.name.clone(),
                call.name().into(),
                million(ours),
                rust.map_or(NONE.into(), million),
                digits(4, a_byte),
                to_normal.unwrap_or(NONE.into()),
                to_ours.unwrap_or(NONE.into()),
            ]);
        }
    }
    Table {
        heads: vec![
            "input",
            "call",
            "ours, million",
            "Rust, million",
            "ours, a byte",
            "to save-7",
            "Rust / ours",
        ],
        words: 2,
        lines,
    }
}

fn index(rows: &[Row]) -> Table {
    let mut lines = Vec::new();
    for row in rows {
        let reading = row.ours(Call::Reading) as f64;
        for (call, number) in INDEX.into_iter().zip(row.index) {
            lines.push(vec![
                row.name.clone(),
                call.name().into(),
                million(number),
                digits(4, row.per_byte(number)),
                ratio(number as f64, reading),
            ]);
        }
    }
    Table {
        heads: vec!["input", "call", "million", "a byte", "call / reading"],
        words: 2,
        lines,
    }
}

fn look_ups(rows: &[Row]) -> Table {
    let line = |row: &Row| {
        let field = row.ours(Call::Field);
        vec![
            row.name.clone(),
            million(field),
            format!("{:.0}", row.look_up),
            ratio(field as f64, row.look_up),
        ]
    };
    Table {
        heads: vec![
            "input",
            "field call, million",
            "look-up",
            "field call / look-up",
        ],
        words: 1,
        lines: rows.iter().map(line).collect(),
    }
}

/// The text call without room ends behind its first walk.
fn forecast(rows: &[Row]) -> Table {
    let line = |row: &Row| {
        let [forecast, measuring] = row.forecast;
        let text = row.ours(Call::Text);
        vec![
            row.name.clone(),
            million(forecast),
            million(measuring),
            million(text),
            digits(4, row.per_byte(forecast)),
            ratio(forecast as f64, measuring as f64),
            ratio(forecast as f64, text as f64),
        ]
    };
    Table {
        heads: vec![
            "input",
            "forecast, million",
            "text without room, million",
            "text, million",
            "forecast, a byte",
            "forecast / text without room",
            "forecast / text",
        ],
        words: 1,
        lines: rows.iter().map(line).collect(),
    }
}

fn sections(rows: &[Row]) -> [Section; 4] {
    [
        ("Instructions", compared(rows)),
        ("Instructions: index", index(rows)),
        ("Instructions: look-ups by index", look_ups(rows)),
        ("Instructions: forecast", forecast(rows)),
    ]
}

/// Some inputs take a while, so each is announced.
pub fn report(inputs: impl Iterator<Item = Input>, is_markdown: bool) -> Result<String, String> {
    let mut rows = Vec::new();
    for input in inputs {
        eprintln!("{} ...", input.name);
        rows.push(row(&input).map_err(|what| format!("{}: {what}", input.name))?);
    }
    Ok(match is_markdown {
        true => markdown_tables(&sections(&rows)),
        false => plain_tables(&sections(&rows)),
    })
}

#[cfg(test)]
mod tests {
    use super::*;
    use crate::{hostile, inputs, saves};

    #[test]
    fn what_valgrind_says() {
        let said = "==7== Events    : Ir\n==7== Collected : 1234567\n==7== \n";
        assert_eq!(collected(said), Some(1_234_567));
        assert_eq!(collected("==7== Collected :\n"), None);
        assert_eq!(collected("Segmentation fault\n"), None);
    }

    #[test]
    fn without_valgrind_or_a_count() {
        let said = |program| counted_by(&mut Command::new(program)).unwrap_err();
        assert!(said("/nonexistent").contains("not installed"));
        assert!(said("false").contains("exit status: 1"));
        assert!(said("true").contains("nothing"));
        let says = |what: &str| {
            let script = format!("echo '==7== Collected : {what}' >&2");
            counted_by(Command::new("sh").args(["-c", &script]))
        };
        assert_eq!(says("12"), Ok(12));
        assert!(says("0").is_err());
    }

    #[test]
    fn questions() {
        let (asked, look_ups, is_read) = prepared(&generate::worked_bytes()).unwrap();
        let worked = Asked {
            words: 12_288,
            room: 73,
            block: 0,
            name: "km".into(),
        };
        assert_eq!((asked, look_ups, is_read), (worked, 1, true));
        let (asked, look_ups, _) = prepared(&saves::save(1)).unwrap();
        assert_eq!(asked.block, saves::blocks(1) as u64 / 2);
        assert_eq!(look_ups, LOOK_UPS);
        assert!(!asked.name.is_empty());
        // The last of many definitions, and one of no fields.
        let (asked, ..) = prepared(&hostile::redefinition()).unwrap();
        assert_eq!(asked.name, "n23808");
        assert!(prepared(&hostile::falling()).unwrap().0.name.is_empty());
        assert!(prepared(b"BSII\x02\0\0\0\0\0\0\0\0").is_err());
    }

    #[test]
    fn what_the_rust_does_not_read() {
        for (name, expected) in [("triple", true), ("triples", false), ("placement-1", false)] {
            let file = (inputs::to_write(name).unwrap().make)();
            assert_eq!(prepared(&file).unwrap().2, expected, "{name}");
        }
    }

    #[test]
    fn numbers() {
        assert_eq!(million(634_014_703), "634.0");
        assert_eq!(million(1_139_035_423), "1139");
        assert_eq!(million(75_252_694), "75.25");
        assert_eq!(million(440_167), "0.4402");
        assert_eq!(ratio(0.087, 1.0), "0.0870");
        assert_eq!(ratio(28_654.4, 1.0), "28654");
        assert_eq!(digits(3, 1.0), "1.00");
    }

    #[test]
    fn tables() {
        let row = |name: &str, rust| Row {
            name: name.into(),
            bytes: 1_000_000,
            compared: [(10_000_000, rust); 3],
            index: [15_000_000; 3],
            look_up: 2500.0,
            forecast: [4_000_000, 5_000_000],
        };
        let rows = [row("save-7", Some(45_000_000)), row("triples", None)];
        let shown = markdown_tables(&sections(&rows));
        for line in [
            "| save-7 | reading | 10.00 | 45.00 | 10.00 | 1.00 | 4.50 |",
            "| triples | field | 10.00 | - | 10.00 | 1.00 | - |",
            "| save-7 | write | 15.00 | 15.00 | 1.50 |",
            "| triples | 10.00 | 2500 | 4000 |",
            "| triples | 4.000 | 5.000 | 10.00 | 4.000 | 0.800 | 0.400 |",
        ] {
            assert!(shown.lines().any(|shown| shown == line), "{line}\n{shown}");
        }
        let alone = plain_tables(&sections(&rows[1..]));
        let line = alone.lines().find(|line| line.contains("text")).unwrap();
        let cells: Vec<&str> = line.split_whitespace().collect();
        assert_eq!(cells, ["triples", "text", "10.00", "-", "10.00", "-", "-"]);
    }
}
