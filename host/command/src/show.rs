//! The lines of the answers, names in messages, and a file's bytes around an offset.

use sii_decode::{DataField, DataValue};
use std::ffi::OsStr;
use std::fmt::{self, Write as _};
use std::io::{self, Write};
use std::os::unix::ffi::OsStrExt;

/// Bytes of a row.
const ROW: usize = 16;
/// The bytes of a save's name that a message shows.
const SHOWN: usize = 60;

/// A name or a string as part of a line: without line feeds and without anything that a terminal
/// would act on, and nothing is lost. It is written byte by byte, since it may be as long as the
/// file.
pub struct Escaped<'a>(pub &'a [u8]);

impl fmt::Display for Escaped<'_> {
    fn fmt(&self, f: &mut fmt::Formatter<'_>) -> fmt::Result {
        self.0.iter().try_for_each(|byte| match byte {
            b'\\' => f.write_str("\\\\"),
            b' '..=b'~' => f.write_char(*byte as char),
            _ => write!(f, "\\x{byte:02x}"),
        })
    }
}

/// A name of the save in a message: escaped, between quotation marks, and of a long one the start.
pub struct Quoted<'a>(pub &'a [u8]);

impl fmt::Display for Quoted<'_> {
    fn fmt(&self, f: &mut fmt::Formatter<'_>) -> fmt::Result {
        match self.0.get(..SHOWN) {
            Some(start) if self.0.len() > SHOWN => write!(f, "\"{}\"..", Escaped(start)),
            _ => write!(f, "\"{}\"", Escaped(self.0)),
        }
    }
}

/// Whether a terminal shows the character and does nothing else: no control character, and none
/// that changes the direction or the line.
fn is_plain(character: char) -> bool {
    !character.is_control()
        && !matches!(character,
            '\u{200e}' | '\u{200f}' | '\u{2028}'..='\u{202e}' | '\u{2066}'..='\u{2069}')
}

/// A path, or another word of the command line, in a message: what is not plain, and bytes that
/// are no character, as `\x` and two hexadecimal digits, and a backslash doubled.
pub fn path(word: &OsStr) -> String {
    let mut shown = String::new();
    let hex = |shown: &mut String, bytes: &[u8]| {
        shown.extend(bytes.iter().map(|byte| format!("\\x{byte:02x}")));
    };
    for chunk in word.as_bytes().utf8_chunks() {
        for character in chunk.valid().chars() {
            match character {
                '\\' => shown.push_str("\\\\"),
                plain if is_plain(plain) => shown.push(plain),
                other => hex(&mut shown, other.encode_utf8(&mut [0; 4]).as_bytes()),
            }
        }
        hex(&mut shown, chunk.invalid());
    }
    shown
}

/// A type's number, what an element is, and whether it is an array's.
pub fn type_of(type_id: u32, kind: &str, array: bool) -> String {
    let array = if array { " array" } else { "" };
    format!("{type_id:02x} {kind}{array}")
}

/// The type, then a line for each element: its index and its value.
pub fn field(out: &mut dyn Write, field: DataField) -> io::Result<()> {
    let shown = type_of(field.type_id, field.kind_name(), field.is_array());
    writeln!(out, "type {shown}")?;
    for (index, value) in field.elements().enumerate() {
        match value {
            DataValue::String(text) => writeln!(out, "{index} {}", Escaped(text.as_bytes()))?,
            other => writeln!(out, "{index} {other}")?,
        }
    }
    Ok(())
}

/// The row with the offset, the rows beside it, and a mark below the offset's byte. The offset may
/// be the file's length: then the mark stands behind the last byte.
pub fn around(out: &mut Vec<u8>, content: &[u8], offset: u64) {
    let offset = usize::try_from(offset).map_or(content.len(), |offset| offset.min(content.len()));
    let row = offset / ROW * ROW;
    for start in [row.checked_sub(ROW), Some(row), Some(row + ROW)] {
        let Some(start) = start.filter(|&start| start < content.len() || start == row) else {
            continue;
        };
        let bytes = &content[start..content.len().min(start + ROW)];
        let shown: String = bytes.iter().map(|byte| format!(" {byte:02x}")).collect();
        let line = format!("  {start:08x} {shown}");
        out.extend(format!("{}\n", line.trim_end()).bytes());
        if start == row {
            let column = "  00000000  ".len() + 3 * (offset - row);
            out.extend(format!("{:column$}^^\n", "").bytes());
        }
    }
}
