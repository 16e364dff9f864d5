//! Each sample save has its stored text by the unchanged Rust, which reads a stand-in of it, and by the
//! model.

use calls::{Call, Implementation, Lent};
use differential::stand_in::StandIn;
use model::Model;
use std::path::Path;

/// The saves and their texts: one of version 2, one of version 1.
fn samples() -> [(Vec<u8>, Vec<u8>); 2] {
    let samples = Path::new(env!("CARGO_MANIFEST_DIR")).join("../../samples");
    let read = |name: String| std::fs::read(samples.join(name)).unwrap();
    ["garage", "depot"].map(|name| (read(format!("{name}.bsii")), read(format!("{name}.sii"))))
}

#[test]
fn have_the_texts_of_the_rust() {
    for (save, text) in samples() {
        let stand_in = StandIn::of(&save);
        let file = stand_in.parse().unwrap();
        assert!(!stand_in.has_open_sums(&file));
        assert_eq!(oracle::to_siin(&file).unwrap().as_bytes(), text);
    }
}

#[test]
fn have_the_texts_of_the_model() {
    for (save, text) in samples() {
        let (mut table, mut out) = ([7; 9], vec![7; text.len()]);
        let lent = Lent {
            file: &save,
            table: &mut table,
            out: &mut out,
        };
        let answer = Model::default().answer(Call::ToSiin, lent).text();
        assert_eq!((answer.number, answer.length), (0, text.len() as u64));
        assert_eq!(out, text);
    }
}
