//! The answers to the calls.
//!
//! `number` 0 means no refusal. `lacking` is the count of reply 3, and 0 beside every other number.
//! What the other fields hold is left open where 01 gives them no meaning; `known` sets those to
//! zero, so that two answers can be compared with `==`.

/// The cases of an element's answer.
pub mod kind {
    pub const STRING: u32 = 1;
    pub const WORD: u32 = 2;
    pub const F32: u32 = 3;
    pub const TWO_F32: u32 = 4;
    pub const THREE_F32: u32 = 5;
    pub const THREE_I32: u32 = 6;
    pub const FOUR_F32: u32 = 7;
    pub const PLACEMENT: u32 = 8;
    pub const I32: u32 = 9;
    pub const U32: u32 = 10;
    pub const U16: u32 = 11;
    pub const I64: u32 = 12;
    pub const U64: u32 = 13;
    pub const BOOL: u32 = 14;
    pub const ENUM: u32 = 15;
    pub const ID: u32 = 16;
    /// A placement in version 1.
    pub const SEVEN_F32: u32 = 17;
}

#[repr(C)]
#[derive(Clone, Copy, Debug, Default, PartialEq, Eq)]
pub struct Reading {
    pub number: u32,
    pub offset: u64,
    pub lacking: u64,
    pub prototypes: u64,
    pub blocks: u64,
    pub next: u64,
}

#[repr(C)]
#[derive(Clone, Copy, Debug, Default, PartialEq, Eq)]
pub struct Prototype {
    pub number: u32,
    pub offset: u64,
    pub lacking: u64,
    pub name_offset: u64,
    pub name_len: u64,
    pub fields: u64,
}

#[repr(C)]
#[derive(Clone, Copy, Debug, Default, PartialEq, Eq)]
pub struct Block {
    pub number: u32,
    pub offset: u64,
    pub lacking: u64,
    pub prototype_id: u32,
    pub id_offset: u64,
    pub id_len: u64,
}

#[repr(C)]
#[derive(Clone, Copy, Debug, Default, PartialEq, Eq)]
pub struct Number {
    pub number: u32,
    pub offset: u64,
    pub lacking: u64,
    pub value: u64,
}

#[repr(C)]
#[derive(Clone, Copy, Debug, Default, PartialEq, Eq)]
pub struct Field {
    pub number: u32,
    pub offset: u64,
    pub lacking: u64,
    pub type_id: u32,
    pub part_offset: u64,
    pub part_len: u64,
}

/// A string and an id have their place; vectors, placements and f32 their bits in `parts`; every
/// other kind its number in `value`: i32 and i64 sign-extended, a bool 0 or 1.
#[repr(C)]
#[derive(Clone, Copy, Debug, Default, PartialEq, Eq)]
pub struct Element {
    pub number: u32,
    pub offset: u64,
    pub lacking: u64,
    pub kind: u32,
    pub place_offset: u64,
    pub place_len: u64,
    pub value: u64,
    pub parts: [u32; 8],
}

#[repr(C)]
#[derive(Clone, Copy, Debug, Default, PartialEq, Eq)]
pub struct Text {
    pub number: u32,
    pub offset: u64,
    pub lacking: u64,
    /// The text's length; for reply 11 the length that is needed.
    pub length: u64,
    /// Of the walk; 0 in every refusal.
    pub steps: u64,
}

/// An index is written.
#[repr(C)]
#[derive(Clone, Copy, Debug, Default, PartialEq, Eq)]
pub struct Length {
    pub number: u32,
    pub offset: u64,
    pub lacking: u64,
    /// The index's length in bytes; for reply 11 the length that is needed.
    pub length: u64,
}

/// An index fits its file.
#[repr(C)]
#[derive(Clone, Copy, Debug, Default, PartialEq, Eq)]
pub struct Checked {
    pub number: u32,
    pub offset: u64,
    pub lacking: u64,
}

/// What a save will need. A refusal foretells nothing: all of it is 0 there.
#[repr(C)]
#[derive(Clone, Copy, Debug, Default, PartialEq, Eq)]
pub struct Forecast {
    pub number: u32,
    pub offset: u64,
    pub lacking: u64,
    pub table_words: u64,
    pub text_len: u64,
    pub index_len: u64,
    /// In bytes of the file; 0 without blocks.
    pub largest_block: u64,
    pub steps: u64,
}

macro_rules! refusals {
    ($($answer:ident),*) => {$(
        impl $answer {
            /// With nothing lacking.
            pub fn refused(number: u32, offset: u64) -> Self {
                $answer { number, offset, ..Default::default() }
            }
        }
    )*};
}

refusals!(Reading, Prototype, Block, Number, Field, Element);
refusals!(Text, Length, Checked, Forecast);

macro_rules! plain_answers {
    ($($answer:ident),*) => {$(
        impl $answer {
            /// The answer with the fields that mean nothing set to zero.
            pub fn known(self) -> Self {
                if self.number != 0 {
                    let Self { number, offset, lacking, .. } = self;
                    $answer { number, offset, lacking, ..Default::default() }
                } else {
                    $answer { offset: 0, ..self }
                }
            }
        }
    )*};
}

plain_answers!(Reading, Prototype, Block, Number, Field);

/// Answers all of whose fields mean something in a refusal too.
macro_rules! whole_answers {
    ($($answer:ident),*) => {$(
        impl $answer {
            /// The answer with the fields that mean nothing set to zero.
            pub fn known(self) -> Self {
                match self.number {
                    0 => $answer { offset: 0, ..self },
                    _ => self,
                }
            }
        }
    )*};
}

whole_answers!(Checked, Forecast);

/// Answers with a length, which reply 11 has too.
macro_rules! lengths {
    ($($answer:ident),*) => {$(
        impl $answer {
            /// The answer with the fields that mean nothing set to zero.
            pub fn known(self) -> Self {
                match self.number {
                    0 => $answer { offset: 0, ..self },
                    11 => self,
                    _ => $answer { length: 0, ..self },
                }
            }
        }
    )*};
}

lengths!(Text, Length);

/// How many of an element's `parts` its kind uses.
pub fn parts_of(kind: u32) -> usize {
    match kind {
        kind::F32 => 1,
        kind::TWO_F32 => 2,
        kind::THREE_F32 | kind::THREE_I32 => 3,
        kind::FOUR_F32 => 4,
        kind::SEVEN_F32 => 7,
        kind::PLACEMENT => 8,
        _ => 0,
    }
}

/// The bits of every NaN in an element's answer: 01 keeps floats as floats, without a NaN's sign and
/// payload.
pub const ONE_NAN: u32 = 0x7fc0_0000;

/// A float's bits, those of a NaN as `ONE_NAN`.
pub fn one_nan(bits: u32) -> u32 {
    if f32::from_bits(bits).is_nan() {
        ONE_NAN
    } else {
        bits
    }
}

impl Element {
    /// The answer with every NaN as the one that there is.
    pub fn with_one_nan(mut self) -> Self {
        if self.kind != kind::THREE_I32 {
            self.parts = self.parts.map(one_nan);
        }
        self
    }

    /// The answer with the fields that mean nothing set to zero.
    pub fn known(self) -> Self {
        let mut known = Element {
            number: self.number,
            lacking: self.lacking,
            ..Default::default()
        };
        if self.number != 0 {
            known.offset = self.offset;
            return known;
        }
        known.kind = self.kind;
        let used = parts_of(self.kind);
        known.parts[..used].copy_from_slice(&self.parts[..used]);
        if matches!(self.kind, kind::STRING | kind::ID) {
            known.place_offset = self.place_offset;
            known.place_len = self.place_len;
        } else if used == 0 {
            known.value = self.value;
        }
        known
    }
}

/// The answer to a call, whichever it is.
macro_rules! answers {
    ($($answer:ident $name:ident),*) => {
        #[derive(Clone, Copy, Debug, PartialEq, Eq)]
        pub enum Answer {
            $($answer($answer)),*
        }

        impl Answer {
            /// 0, or the refusal's number.
            pub fn number(self) -> u32 {
                match self {
                    $(Answer::$answer(answer) => answer.number),*
                }
            }

            /// The answer with the fields that mean nothing set to zero.
            pub fn known(self) -> Self {
                match self {
                    $(Answer::$answer(answer) => Answer::$answer(answer.known())),*
                }
            }

            /// The same call's refusal, with nothing lacking.
            pub fn refused(self, number: u32, offset: u64) -> Self {
                match self {
                    $(Answer::$answer(_) => Answer::$answer($answer::refused(number, offset))),*
                }
            }

            /// Number, offset and lacking bytes, which every answer has.
            pub fn fault(self) -> (u32, u64, u64) {
                match self {
                    $(Answer::$answer(a) => (a.number, a.offset, a.lacking)),*
                }
            }

            /// The answer with other lacking bytes.
            pub fn lacking(self, lacking: u64) -> Self {
                match self {
                    $(Answer::$answer(a) => Answer::$answer($answer { lacking, ..a })),*
                }
            }

            $(
                /// The answer of a call that has this one.
                pub fn $name(self) -> $answer {
                    match self {
                        Answer::$answer(answer) => answer,
                        other => panic!("the answer to another call: {other:?}"),
                    }
                }
            )*
        }
    };
}

answers!(
    Reading reading,
    Prototype prototype,
    Block block,
    Number named,
    Field field,
    Element element,
    Text text,
    Length length,
    Checked checked,
    Forecast forecast
);
