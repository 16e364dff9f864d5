//! Writes the lists of insertions that are stored for the definitions:
//!
//!     cargo run --offline -q -p generate --example lists > ../tests/widening/lists.txt

use generate::widening::{stored_lists, text};

fn main() {
    print!("{}", text(&stored_lists()));
}
