//! The inputs by name.

use crate::{hostile, orders, saves, vectors};

pub struct Input {
    pub name: String,
    pub about: String,
    pub make: Box<dyn Fn() -> Vec<u8>>,
}

/// The sizes in the table, in megabytes.
const TABLE: [usize; 3] = [1, 7, 16];
/// The sizes in the plot.
pub const PLOT: [usize; 7] = [1, 2, 4, 7, 10, 13, 16];
/// The save that the bar is about.
pub const NORMAL: &str = "save-7";
/// Those that instructions are counted on if none are named: callgrind takes minutes for others.
pub const COUNTED: [&str; 12] = [
    "save-1",
    NORMAL,
    "prototypes",
    "falling",
    "names",
    "long-text",
    "arrays",
    "redefinition",
    "redefinitions",
    "enum-lists",
    "bare-string",
    "words",
];

fn save(megabytes: usize) -> Input {
    Input {
        name: format!("save-{megabytes}"),
        about: format!(
            "a save of {megabytes} MB: {} prototypes, {} blocks",
            saves::prototypes(megabytes),
            saves::blocks(megabytes)
        ),
        make: Box::new(move || saves::save(megabytes)),
    }
}

fn hostile() -> impl Iterator<Item = Input> {
    let smaller = hostile::ALL.into_iter().map(|(name, about, make)| Input {
        name: name.into(),
        about: about.into(),
        make: Box::new(make),
    });
    smaller.chain(orders::all())
}

/// Those of the tables.
pub fn table() -> Vec<Input> {
    TABLE.into_iter().map(save).chain(hostile()).collect()
}

pub fn saves_for_plot() -> Vec<Input> {
    PLOT.into_iter().map(save).collect()
}

/// One that whole processes are timed on.
pub fn is_save(name: &str) -> bool {
    !is_hostile(name) && !is_larger(name)
}

/// One that the bar is about.
pub fn is_hostile(name: &str) -> bool {
    hostile::ALL.iter().any(|(hostile, ..)| *hostile == name)
}

/// One that needs a larger table.
pub fn is_larger(name: &str) -> bool {
    orders::all().any(|larger| larger.name == name)
}

/// The one of that name that can be written and counted on: one of those that are timed, or of one type.
pub fn to_write(name: &str) -> Option<Input> {
    by_name(name).or_else(|| vectors::all().find(|input| input.name == name))
}

/// The one of that name: a save of any size from 1 to 16 MB, or a hostile file.
pub fn by_name(name: &str) -> Option<Input> {
    let megabytes = (1..=saves::LARGEST).find(|size| name == format!("save-{size}"));
    match megabytes {
        Some(megabytes) => Some(save(megabytes)),
        None => hostile().find(|input| input.name == name),
    }
}

#[cfg(test)]
mod tests {
    use super::*;

    #[test]
    fn found_by_name() {
        for input in table().into_iter().chain(saves_for_plot()) {
            assert_eq!(by_name(&input.name).unwrap().name, input.name);
        }
        assert!(by_name(NORMAL).is_some());
        assert!(COUNTED.iter().all(|name| by_name(name).is_some()));
        assert!(by_name("save-0").is_none() && by_name("save-17").is_none());
        assert!(by_name("save-07").is_none() && by_name("").is_none());
        assert!(is_hostile("enums") && is_hostile("falling") && !is_hostile("save-1"));
        assert!(is_larger("rows-random") && !is_hostile("rows-random"));
        assert!(!is_larger("falling") && !is_larger("save-1"));
        assert!(is_save("save-1") && !is_save("enums") && !is_save("rows-random"));
        assert!(to_write("save-1").is_some() && to_write("triples").is_some());
        assert!(by_name("triples").is_none() && to_write("save-0").is_none());
    }
}
