//! Catches panics and tells them apart by the function and the message they come from.

use std::cell::{Cell, RefCell};
use std::panic::{catch_unwind, set_hook, take_hook, AssertUnwindSafe, PanicHookInfo};
use std::sync::Once;

/// Why the Rust gave no result.
#[derive(Clone, Debug, PartialEq, Eq)]
pub enum Fault {
    Number(u32),
    /// UnsupportedVersion, of version 1: document 02 reads it, so no reply has this class.
    Version,
    /// The reader's `todo!` at a value of this type, which is reply 7 for an unlisted one.
    Todo(u32),
    /// A panic that document 01 has no number for.
    Unknown(String),
}

impl Fault {
    pub fn number(&self) -> Option<u32> {
        match self {
            Fault::Number(number) => Some(*number),
            Fault::Todo(_) => Some(7),
            Fault::Version | Fault::Unknown(_) => None,
        }
    }
}

/// The reader's `todo!`: its function, and the message up to the type.
const TODO: (&str, &str) = (
    "value_parser",
    "not yet implemented: Implement value parse for type_id ",
);

/// Function, start of the message, reply number.
const SITES: [(&str, &str, u32); 7] = [
    (
        "str_parser",
        "called `Result::unwrap()` on an `Err` value: Utf8Error",
        4,
    ),
    ("encoded_str_parser", "index out of bounds", 5),
    ("encoded_str_parser", "attempt to subtract with overflow", 5),
    (
        "data_block_parser",
        "called `Option::unwrap()` on a `None` value",
        6,
    ),
    (
        "write_data_block",
        "assertion `left == right` failed: Data blocks",
        8,
    ),
    ("write_data_block", "assertion failed: `(left == right)`", 8),
    (
        "write_scalar_data_value",
        "called `Option::unwrap()` on a `None` value",
        9,
    ),
];

thread_local! {
    static CATCHING: Cell<bool> = const { Cell::new(false) };
    static LAST: RefCell<Option<Fault>> = const { RefCell::new(None) };
}

/// Runs `call`; a panic in it becomes a `Fault` and prints nothing.
pub fn caught<T>(call: impl FnOnce() -> T) -> Result<T, Fault> {
    install_hook();
    CATCHING.set(true);
    let result = catch_unwind(AssertUnwindSafe(call));
    CATCHING.set(false);
    result.map_err(|_| LAST.take().expect("the hook records each panic"))
}

fn install_hook() {
    static INSTALLED: Once = Once::new();
    INSTALLED.call_once(|| {
        let usual = take_hook();
        set_hook(Box::new(move |info| {
            if CATCHING.get() {
                LAST.set(Some(fault_of(info)));
            } else {
                usual(info);
            }
        }));
    });
}

fn fault_of(info: &PanicHookInfo<'_>) -> Fault {
    let payload = info.payload();
    let message = match payload.downcast_ref::<String>() {
        Some(text) => text.as_str(),
        None => payload.downcast_ref::<&str>().copied().unwrap_or(""),
    };
    let (file, line) = info.location().map_or(("", 0), |at| (at.file(), at.line()));
    let function = function_at(file, line as usize);
    let site = SITES
        .iter()
        .find(|(name, start, _)| *name == function && message.starts_with(start));
    let todo = message.strip_prefix(TODO.1).filter(|_| function == TODO.0);
    let todo = todo.and_then(|digits| u32::from_str_radix(digits, 16).ok());
    match (site, todo) {
        (Some((_, _, number)), _) => Fault::Number(*number),
        (None, Some(type_id)) => Fault::Todo(type_id),
        (None, None) => Fault::Unknown(format!("{file}:{line} in {function}: {message}")),
    }
}

/// The function that a line of the source stands in: the nearest `fn` at or above it.
fn function_at(file: &str, line: usize) -> &'static str {
    let source = crate::SOURCE.iter().find(|(name, _)| file.ends_with(name));
    let Some((_, text)) = source else { return "" };
    let above = text.split_inclusive('\n').take(line).map(str::len).sum();
    let text = &text[..above];
    let start = text.rfind("fn ").map_or(above, |at| at + 3);
    let rest = &text[start..];
    let end = rest.find(|c: char| !c.is_alphanumeric() && c != '_');
    &rest[..end.unwrap_or(rest.len())]
}
