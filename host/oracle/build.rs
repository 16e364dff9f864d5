//! Builds the unchanged Rust source as the crate `sii_decode`, with Debian's nom and log.
//!
//! The source is not part of this repository. SII_SOURCE names the folder that holds it; without
//! it, `../shared/docs` beside the repository is taken.

use std::env;
use std::fs;
use std::path::{Path, PathBuf};
use std::process::{exit, Command};

const FILES: [&str; 3] = ["bsii_parse.rs", "bsii_file.rs", "bsii_output.rs"];
const REGISTRY: &str = "/usr/share/cargo/registry";
const PACKAGES: &str = "apt-get install -y librust-nom-dev librust-log-dev";

fn stop(message: &str) -> ! {
    eprintln!("oracle: {message}");
    exit(1)
}

fn main() {
    println!("cargo:rerun-if-env-changed=SII_SOURCE");
    println!("cargo:rerun-if-env-changed=SII_REGISTRY");
    println!("cargo:rerun-if-env-changed=SII_RUSTC_FLAGS");
    println!("cargo:rerun-if-changed=build.rs");
    let out = PathBuf::from(env::var("OUT_DIR").unwrap());
    copy_source(&source_folder(), &out.join("src"));
    build_crates(&out);
    println!("cargo:rustc-link-search=all={}", out.display());
}

/// A relative path counts from the repository's root.
fn source_folder() -> PathBuf {
    let root = Path::new(&env::var("CARGO_MANIFEST_DIR").unwrap()).join("../..");
    root.join(env::var_os("SII_SOURCE").unwrap_or("../shared/docs".into()))
}

/// Puts the three files under their own names beside a lib.rs that only lists them.
fn copy_source(from: &Path, to: &Path) {
    fs::create_dir_all(to).unwrap();
    for file in FILES {
        let candidates = [from.join(format!("src--src--{file}.txt")), from.join(file)];
        let Some(path) = candidates.iter().find(|path| path.is_file()) else {
            stop(&format!(
                "{file} (or src--src--{file}.txt) is not in {}: set SII_SOURCE to the folder \
                 that holds the Rust source",
                from.display()
            ));
        };
        println!("cargo:rerun-if-changed={}", path.display());
        // Not a copy of the permissions: the next build overwrites the file.
        fs::write(to.join(file), fs::read(path).unwrap()).unwrap();
    }
    let modules = "pub mod bsii_file;\npub mod bsii_output;\npub mod bsii_parse;\n";
    fs::write(to.join("lib.rs"), modules).unwrap();
}

/// The folder of a Debian crate, for instance `nom-7.1.1`.
fn crate_folder(prefix: &str) -> PathBuf {
    let registry = env::var("SII_REGISTRY").unwrap_or(REGISTRY.to_string());
    let found = fs::read_dir(&registry).ok().and_then(|entries| {
        entries.flatten().map(|entry| entry.path()).find(|path| {
            path.file_name()
                .unwrap()
                .to_string_lossy()
                .starts_with(prefix)
        })
    });
    found.unwrap_or_else(|| {
        stop(&format!(
            "no {prefix}* in {registry}: run `{PACKAGES}`, or set SII_REGISTRY"
        ))
    })
}

fn build_crates(out: &Path) {
    let nom = crate_folder("nom-7.1.");
    if !nom.ends_with("nom-7.1.1") {
        println!(
            "cargo:warning=comparing with {}, not with nom 7.1.1",
            nom.display()
        );
    }
    let library = |prefix: &str| crate_folder(prefix).join("src/lib.rs");
    rlib(out, "memchr", &library("memchr-2."), "2018", &[]);
    rlib(
        out,
        "minimal_lexical",
        &library("minimal-lexical-0.2."),
        "2018",
        &[],
    );
    rlib(out, "cfg_if", &library("cfg-if-1."), "2018", &[]);
    rlib(out, "log", &library("log-0.4."), "2015", &["cfg_if"]);
    rlib(
        out,
        "nom",
        &nom.join("src/lib.rs"),
        "2018",
        &["memchr", "minimal_lexical"],
    );
    rlib(
        out,
        "sii_decode",
        &out.join("src/lib.rs"),
        "2021",
        &["nom", "log"],
    );
}

/// Always with the flags of a release build, whatever profile the harness has. SII_RUSTC_FLAGS adds
/// to them, for the coverage counters of the fuzzer.
fn rlib(out: &Path, name: &str, root: &Path, edition: &str, uses: &[&str]) {
    let mut rustc = Command::new(env::var("RUSTC").unwrap());
    rustc.args(["--crate-type=rlib", "--cap-lints=allow", "-Copt-level=3"]);
    rustc.args([
        "-Cdebug-assertions=off",
        "-Coverflow-checks=off",
        "-Cmetadata=oracle",
    ]);
    // What the crates' own build scripts and default features would set.
    rustc.args(["--cfg=atomic_cas", "--cfg=has_atomics"]);
    rustc.args(["--cfg=feature=\"std\"", "--cfg=feature=\"alloc\""]);
    rustc.args(
        env::var("SII_RUSTC_FLAGS")
            .unwrap_or_default()
            .split_whitespace(),
    );
    rustc.arg(format!("--edition={edition}"));
    rustc.arg(format!("--target={}", env::var("TARGET").unwrap()));
    rustc
        .args(["--crate-name", name])
        .arg(root)
        .arg("--out-dir")
        .arg(out);
    rustc.arg("-L").arg(format!("dependency={}", out.display()));
    for used in uses {
        let path = out.join(format!("lib{used}.rlib"));
        rustc
            .arg("--extern")
            .arg(format!("{used}={}", path.display()));
    }
    match rustc.status() {
        Ok(status) if status.success() => {}
        _ => stop(&format!("rustc failed on {}", root.display())),
    }
}
