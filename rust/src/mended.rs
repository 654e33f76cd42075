//! What is mended of fonts.

use std::fmt;

/// A thing that [`mend`](crate::mend) mends of a font. It prints as the program t1subset prints it.
///
/// ```
/// let mend = t1subset::Mend { what: "code copied".into(), at: 209 };
/// assert_eq!(mend.to_string(), "code copied at 209");
/// ```
#[derive(Clone, Debug, PartialEq, Eq, Hash)]
pub struct Mend {
    /// `comment in Encoding`, `code copied`, `readonly Encoding`, `comment in Subrs`, or
    /// `test of FontDirectory taken out`.
    pub what: String,
    /// An offset from 0, for Subrs in the decrypted private text, else in the clear text.
    pub at: u64,
}

impl Mend {
    /// What the text of `mends` says.
    pub(crate) fn read(text: &str) -> Option<Vec<Mend>> {
        text.lines().map(Mend::shown).collect()
    }

    /// The mend that is printed so.
    fn shown(line: &str) -> Option<Mend> {
        let (what, at) = line.rsplit_once(" at ")?;
        Some(Mend { what: what.into(), at: at.parse().ok()? })
    }
}

impl fmt::Display for Mend {
    fn fmt(&self, f: &mut fmt::Formatter<'_>) -> fmt::Result {
        write!(f, "{} at {}", self.what, self.at)
    }
}

#[cfg(test)]
mod tests {
    use super::Mend;

    #[test]
    fn texts_of_another_library() {
        for text in ["\n", "code copied at 1\ncode copied\n", "code copied at -1\n", "code copied at \n"] {
            assert_eq!(Mend::read(text), None, "{text}");
        }
    }
}
