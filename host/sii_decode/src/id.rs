//! Ids and encoded words, shown as the text shows them.

use std::fmt;

/// A block's id, or one that is a value. `Display` shows it as the text does.
#[derive(Clone, Debug, PartialEq, Eq, Hash)]
pub enum Id {
    /// A number.
    Nameless(u64),
    /// Its words, of which there may be none: that is `null`.
    Named(Vec<String>),
}

const CHARACTERS: &[u8; 37] = b"0123456789abcdefghijklmnopqrstuvwxyz_";

/// The characters of an encoded word that the library has read, so without a digit 0.
pub(crate) fn word(number: u64) -> String {
    let mut rest = number & (u64::MAX >> 1);
    let mut characters = String::new();
    while rest > 0 {
        let digit = (rest % 38) as usize;
        characters.extend(digit.checked_sub(1).map(|at| CHARACTERS[at] as char));
        rest /= 38;
    }
    characters
}

impl Id {
    /// The bytes of an id as the library places them, the first one the number of words.
    pub(crate) fn from_bytes(bytes: &[u8]) -> Id {
        let mut numbers = bytes[1..]
            .chunks_exact(8)
            .map(|bytes| u64::from_le_bytes(bytes.try_into().unwrap()));
        if bytes[0] == 0xff {
            Id::Nameless(numbers.next().unwrap())
        } else {
            Id::Named(numbers.map(word).collect())
        }
    }
}

impl fmt::Display for Id {
    fn fmt(&self, f: &mut fmt::Formatter<'_>) -> fmt::Result {
        match self {
            Id::Named(words) if words.is_empty() => f.write_str("null"),
            Id::Named(words) => f.write_str(&words.join(".")),
            Id::Nameless(number) => {
                f.write_str("_nameless")?;
                let groups = [48, 32, 16, 0].map(|shift| number >> shift & 0xffff);
                let first = groups.iter().position(|&group| group != 0).unwrap_or(3);
                write!(f, ".{:x}", groups[first])?;
                groups[first + 1..]
                    .iter()
                    .try_for_each(|group| write!(f, ".{group:04x}"))
            }
        }
    }
}
