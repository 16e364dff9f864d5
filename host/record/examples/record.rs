//! `--example record -- FILE`: writes the list of files with the Rust's answers to FILE.

fn main() -> std::io::Result<()> {
    let Some(path) = std::env::args_os().nth(1) else {
        eprintln!("usage: cargo run --release --offline --example record -- FILE");
        std::process::exit(2);
    };
    // The Rust prints some inputs.
    let _kept = oracle::silence_stdout()?;
    let entries = record::entries();
    let list = answers::list(&entries);
    eprintln!("{} files, {} bytes", entries.len(), list.len());
    std::fs::write(path, list)
}
