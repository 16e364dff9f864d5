//! Times the library against the unchanged Rust; `benchmark --help` says how.

#![forbid(unsafe_code)]

mod arguments;
mod forecast;
mod hostile;
mod index;
mod inputs;
mod instructions;
mod loops;
mod machine;
mod memory;
mod one_call;
mod orders;
mod plot;
mod processes;
mod report;
mod saves;
mod sides;
mod statistics;
mod temporary;
mod vectors;

use arguments::{Arguments, Run, Side, USAGE};
use inputs::Input;
use report::{Peaks, Row};
use sides::Timed;
use std::fs;
use std::io::{self, Write};
use std::process::ExitCode;

fn main() -> ExitCode {
    let arguments = match arguments::parse(std::env::args_os().skip(1).collect()) {
        Ok(arguments) => arguments,
        Err(what) => {
            eprint!("benchmark: {what}\n{USAGE}");
            return ExitCode::from(2);
        }
    };
    match answer(arguments) {
        Ok(()) => ExitCode::SUCCESS,
        Err(what) => {
            eprintln!("benchmark: {what}");
            ExitCode::FAILURE
        }
    }
}

fn show(bytes: &[u8]) -> Result<(), String> {
    let mut out = io::stdout().lock();
    let written = out.write_all(bytes).and_then(|()| out.flush());
    written.map_err(|error| format!("standard output: {error}"))
}

fn input(name: &str) -> Input {
    inputs::to_write(name).expect("the arguments were looked up")
}

fn answer(arguments: Arguments) -> Result<(), String> {
    match arguments {
        Arguments::Help => show(USAGE.as_bytes()),
        Arguments::Convert(side, path) => processes::convert(side, &path),
        Arguments::Write(name) => show(&(input(&name).make)()),
        Arguments::Memory(side, name) => {
            let peak = match name.as_str() {
                "-" => memory::own(side)?,
                _ => memory::of_child(side, &(input(&name).make)())?,
            };
            show(format!("{peak}\n").as_bytes())
        }
        Arguments::OneCall(side, call, path, asked) => one_call::run(side, call, &path, &asked),
        Arguments::Instructions(only, markdown) => {
            let names = match only.is_empty() {
                true => inputs::COUNTED.map(String::from).to_vec(),
                false => only,
            };
            warn_of_allocator();
            let inputs = names.iter().map(|name| input(name));
            show(instructions::report(inputs, markdown)?.as_bytes())
        }
        Arguments::Run(run) => measure(&run),
    }
}

/// The input's bytes and its times. Some inputs take a while, so each is announced.
fn timed(input: &Input, rounds: usize) -> Result<(Vec<u8>, Timed), String> {
    eprintln!("{} ...", input.name);
    let file = (input.make)();
    let timed = sides::time(&file, rounds).map_err(|what| format!("{}: {what}", input.name))?;
    Ok((file, timed))
}

fn row(input: Input, rounds: usize) -> Result<Row, String> {
    let (file, timed) = timed(&input, rounds)?;
    let (peaks, index, forecast) = if inputs::is_larger(&input.name) {
        (None, None, None)
    } else {
        let peaks = Peaks {
            ours: memory::of_child(Side::Ours, &file)?,
            rust: memory::of_child(Side::Rust, &file)?,
        };
        let of = |what| format!("{}: {what}", input.name);
        let index = index::time(&file, rounds).map_err(of)?;
        let forecast = forecast::time(&file, rounds).map_err(of)?;
        (Some(peaks), Some(index), Some(forecast))
    };
    let processes = if inputs::is_save(&input.name) {
        processes::time(&file, rounds)?
    } else {
        Vec::new()
    };
    Ok(Row {
        timed,
        index,
        forecast,
        peaks,
        processes,
        name: input.name,
        about: input.about,
    })
}

fn warn_of_allocator() {
    if oracle::LAZY {
        eprintln!("benchmark: the Rust has the allocator of the differential tests, which is not its usual one: build with -p benchmark alone");
    }
}

fn measure(run: &Run) -> Result<(), String> {
    warn_of_allocator();
    if !processes::has_command() {
        eprintln!("benchmark: the command was not built (cargo build --release -p command): it is not timed");
    }
    let inputs = if run.only.is_empty() {
        inputs::table()
    } else {
        run.only.iter().map(|name| input(name)).collect()
    };
    let mut rows = Vec::new();
    for input in inputs {
        rows.push(row(input, run.rounds)?);
    }
    let text = if run.markdown {
        report::markdown(&rows, run.rounds)
    } else {
        report::plain(&rows, run.rounds)
    };
    show(text.as_bytes())?;
    if rows.iter().any(|row| row.name == inputs::NORMAL) {
        show(loops::report(run.rounds)?.as_bytes())?;
    }
    if let Some(path) = &run.plot {
        let mut all = Vec::new();
        for input in inputs::saves_for_plot() {
            // What the table has is not measured twice.
            match rows.iter().position(|row| row.name == input.name) {
                Some(at) => all.push(rows.swap_remove(at).timed),
                None => all.push(timed(&input, run.rounds)?.1),
            }
        }
        fs::write(path, plot::svg(&all)).map_err(|error| format!("{}: {error}", path.display()))?;
    }
    Ok(())
}
