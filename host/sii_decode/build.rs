//! Finds the library's archive: in SII_LIBRARY, or where `tools/build sii_decode_c` puts it. A
//! relative path counts from the repository's root.

use std::env;
use std::path::Path;
use std::process::exit;

const NAME: &str = "sii_decode_c";

fn main() {
    println!("cargo:rerun-if-env-changed=SII_LIBRARY");
    let root = Path::new(&env::var("CARGO_MANIFEST_DIR").unwrap()).join("../..");
    let folder = root.join(env::var_os("SII_LIBRARY").unwrap_or("target/staticlib".into()));
    let archive = folder.join(format!("lib{NAME}.a"));
    if !archive.is_file() {
        eprintln!(
            "sii_decode: no {}: run `tools/build {NAME}`",
            archive.display()
        );
        exit(1);
    }
    println!("cargo:rerun-if-changed={}", archive.display());
    println!("cargo:rustc-link-search=native={}", folder.display());
    println!("cargo:rustc-link-lib=static={NAME}");
}
