//! Names of glyphs.

use std::borrow::Borrow;
use std::fmt::{self, Write};

/// A name of a glyph, or a word of an Encoding: bytes, mostly ASCII, without a slash.
///
/// It prints as the program t1subset prints it: a byte from 33 to 126 other than the backslash as it stands, and any
/// other byte as `\x` and two digits. A map of names can be asked for bytes: `listed.glyphs.get(&b"A"[..])`.
#[derive(Clone, PartialEq, Eq, PartialOrd, Ord, Hash)]
pub struct Name(Vec<u8>);

impl Name {
    /// The bytes of the name.
    pub fn as_bytes(&self) -> &[u8] {
        &self.0
    }

    /// The name that is printed so.
    pub(crate) fn shown(text: &str) -> Option<Name> {
        let mut bytes = Vec::with_capacity(text.len());
        let mut rest = text.bytes();
        while let Some(byte) = rest.next() {
            if byte != b'\\' {
                bytes.push(byte);
                continue;
            }
            let digits = [rest.next()?, rest.next()?, rest.next()?];
            let (high, low) = (char::from(digits[1]).to_digit(16)?, char::from(digits[2]).to_digit(16)?);
            if digits[0] != b'x' {
                return None;
            }
            bytes.push((high * 16 + low) as u8);
        }
        Some(Name(bytes))
    }
}

impl From<&str> for Name {
    fn from(name: &str) -> Name {
        Name(name.into())
    }
}

impl From<&[u8]> for Name {
    fn from(name: &[u8]) -> Name {
        Name(name.into())
    }
}

impl From<Name> for Vec<u8> {
    fn from(name: Name) -> Vec<u8> {
        name.0
    }
}

impl AsRef<[u8]> for Name {
    fn as_ref(&self) -> &[u8] {
        &self.0
    }
}

impl Borrow<[u8]> for Name {
    fn borrow(&self) -> &[u8] {
        &self.0
    }
}

impl PartialEq<str> for Name {
    fn eq(&self, other: &str) -> bool {
        self.0 == other.as_bytes()
    }
}

impl PartialEq<&str> for Name {
    fn eq(&self, other: &&str) -> bool {
        self == *other
    }
}

impl fmt::Display for Name {
    fn fmt(&self, f: &mut fmt::Formatter<'_>) -> fmt::Result {
        for &byte in &self.0 {
            if (33..=126).contains(&byte) && byte != b'\\' {
                f.write_char(char::from(byte))?;
            } else {
                write!(f, "\\x{byte:02x}")?;
            }
        }
        Ok(())
    }
}

impl fmt::Debug for Name {
    fn fmt(&self, f: &mut fmt::Formatter<'_>) -> fmt::Result {
        write!(f, "\"{self}\"")
    }
}

#[cfg(test)]
mod tests {
    use super::Name;

    #[test]
    fn texts_that_are_no_names() {
        for text in ["\\", "\\x", "\\x5", "\\y5c", "\\x5g", "a\\"] {
            assert_eq!(Name::shown(text), None, "{text}");
        }
    }
}
