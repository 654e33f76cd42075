//! Why a call has no result.

use std::error::Error;
use std::fmt;

macro_rules! numbers {
    ($($(#[$words:meta])* $name:ident = $number:literal,)*) => {
        /// The numbers of `t1subset.h`. N is [`Refused::detail`].
        #[derive(Clone, Copy, Debug, PartialEq, Eq, Hash)]
        #[non_exhaustive]
        pub enum Number {
            $($(#[$words])* $name,)*
            /// A number that a later library added.
            Other(u32),
        }

        impl From<u32> for Number {
            fn from(number: u32) -> Number {
                match number {
                    $($number => Number::$name,)*
                    other => Number::Other(other),
                }
            }
        }

        impl From<Number> for u32 {
            fn from(number: Number) -> u32 {
                match number {
                    $(Number::$name => $number,)*
                    Number::Other(other) => other,
                }
            }
        }
    };
}

numbers! {
    /// A growth was refused, and nothing is held (no text).
    Memory = 1,
    /// The form is none (no text). The calls of this crate can't be refused so.
    BadCall = 2,
    /// `file too long`: it has more than 268,435,456 bytes.
    FileTooLong = 3,
    /// `no glyph NAME`: the first name that the font lacks.
    NoGlyph = 4,
    /// `no code N`: the first of the codes for which the Encoding has no name.
    NoCode = 5,
    /// `no font NAME`: no document has a font of this name.
    NoFont = 6,
    /// `too many tokens`: more than the [`Limits`](crate::Limits) allow.
    TooManyTokens = 7,
    /// `no document: WHAT`: a file carries no PostScript document.
    NoDocument = 8,
    /// `bad segment at N`, an offset in the file.
    BadSegment = 10,
    /// `no eexec`: no Type 1 font program, perhaps TrueType or CFF.
    NoEexec = 11,
    /// `cipher too short`.
    ShortCipher = 12,
    /// `no Encoding`.
    NoEncoding = 13,
    /// `bad Encoding at N`: the table doesn't parse from this offset of the clear text on.
    BadEncoding = 14,
    /// `no CharStrings`.
    NoCharStrings = 15,
    /// `bad lenIV`.
    BadLenIv = 16,
    /// `bad Subrs at N`, an offset in the decrypted private text.
    BadSubrs = 17,
    /// `bad CharStrings at N`, an offset in the decrypted private text.
    BadCharStrings = 18,
    /// `hybrid font`: it has two tables of Subrs.
    Hybrid = 19,
    /// `no closefile`.
    NoClosefile = 20,
    /// `no .notdef`.
    NoNotdef = 21,
    /// `over a limit`: 65,535 glyphs or Subrs, or a weight of 67,108,864.
    FontLimit = 22,
    /// `shells differ in PART`: see [`Refused::part`].
    ShellsDiffer = 30,
    /// `code N differs`: the Encodings have different names for it.
    CodeDiffers = 31,
    /// `glyph NAME differs`.
    GlyphDiffers = 32,
    /// `glyph NAME lacks part NAME`: a component of an accented glyph.
    GlyphLacksPart = 33,
    /// `subr N differs`, perhaps with `, used by NAME`.
    SubrDiffers = 34,
    /// `over a limit`: the merged font would be too large.
    MergeLimit = 35,
    /// `nothing to merge`: the list of fonts is empty.
    NothingToMerge = 36,
    /// `glyph NAME lacks subr N`, of fonts to rejoin.
    GlyphLacksSubr = 37,
    /// `bad line N` of a listing, from 1.
    BadLine = 40,
    /// `repeated in line N`: an earlier line has its key.
    RepeatedLine = 41,
    /// `subr N differs`, of two listings.
    ListedSubrDiffers = 42,
    /// `glyph NAME differs`, of two listings.
    ListedGlyphDiffers = 43,
}

macro_rules! parts {
    ($($(#[$words:meta])* $name:ident = $number:literal,)*) => {
        /// The part of a font that differs: everything outside the tables has to be the same in fonts that merge.
        #[derive(Clone, Copy, Debug, PartialEq, Eq, Hash)]
        #[non_exhaustive]
        pub enum Part {
            $($(#[$words])* $name,)*
        }

        impl Part {
            fn at(number: u64) -> Option<Part> {
                match number {
                    $($number => Some(Part::$name),)*
                    _ => None,
                }
            }
        }
    };
}

parts! {
    /// The clear text before the Encoding.
    Head = 0,
    /// The Encoding: a word and a table, or two words.
    Encoding = 1,
    /// The clear text behind the Encoding.
    ClearTail = 2,
    /// The private text before Subrs, and lenIV.
    Private = 3,
    /// How many Subrs are declared, and which are there.
    SubrsTable = 4,
    /// The words around each Subr.
    SubrsWords = 5,
    /// The private text between Subrs and CharStrings.
    Middle = 6,
    /// The words around each glyph.
    GlyphsWords = 7,
    /// The private text behind CharStrings.
    Tail = 8,
}

/// The library gives no result, and says why.
///
/// Several things may be wrong with the input: the first is told, files in their order before names and conflicts.
#[derive(Clone, Debug, PartialEq, Eq, Hash)]
#[non_exhaustive]
pub struct Refused {
    /// What is wrong.
    pub number: Number,
    /// What the program t1subset prints behind `refused: `, such as `no glyph Q`. In a name there, each byte outside 33
    /// to 126, and the backslash, stands as `\x` and two digits.
    pub text: String,
    /// What the number names: an offset, a code, an index, a line or a part; else 0.
    pub detail: u64,
    /// The place, from 0, of the file that is refused for itself. `None` if none is, as for a glyph that the font lacks,
    /// a conflict of two fonts, or documents that are too long all together.
    pub input: Option<usize>,
}

impl Refused {
    /// The part that differs, of [`Number::ShellsDiffer`].
    pub fn part(&self) -> Option<Part> {
        match self.number {
            Number::ShellsDiffer => Part::at(self.detail),
            _ => None,
        }
    }
}

impl fmt::Display for Refused {
    fn fmt(&self, f: &mut fmt::Formatter<'_>) -> fmt::Result {
        match self.number {
            Number::Memory => f.write_str("out of memory"),
            number if self.text.is_empty() => write!(f, "refusal {} of libt1subset", u32::from(number)),
            _ => f.write_str(&self.text),
        }
    }
}

impl Error for Refused {}
