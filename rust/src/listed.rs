//! What fonts have.

use crate::drawing::{Amount, Point};
use crate::name::Name;
use std::collections::BTreeMap;

/// What [`check`](crate::check) answers.
#[derive(Clone, Copy, Debug, PartialEq, Eq, Hash)]
#[non_exhaustive]
pub struct Checked {
    /// How many glyphs the font has.
    pub glyphs: usize,
    /// How many Subrs are present.
    pub subrs: usize,
    /// Its weight, the size that is limited to 67,108,864.
    pub weight: usize,
}

impl Checked {
    /// What the text of `check` says.
    pub(crate) fn read(text: &str) -> Option<Checked> {
        let rest = text.strip_prefix("ok ")?.strip_suffix('\n')?;
        let (glyphs, rest) = rest.split_once(" glyphs, ")?;
        let (subrs, weight) = rest.split_once(" subrs, weight ")?;
        Some(Checked { glyphs: glyphs.parse().ok()?, subrs: subrs.parse().ok()?, weight: weight.parse().ok()? })
    }
}

/// The Encoding of a font.
#[derive(Clone, Debug, PartialEq, Eq, Hash)]
pub enum Encoding {
    /// A word, such as `StandardEncoding`.
    Word(Name),
    /// The names of the codes that have one.
    Codes(BTreeMap<u8, Name>),
}

/// What [`list`](crate::list) answers. Lengths are those of the plain charstrings.
#[derive(Clone, Debug, PartialEq, Eq, Hash)]
#[non_exhaustive]
pub struct Listed {
    /// The Encoding.
    pub encoding: Encoding,
    /// The length of each Subr, by its index.
    pub subrs: BTreeMap<u16, usize>,
    /// The length of each glyph, by its name.
    pub glyphs: BTreeMap<Name, usize>,
}

impl Listed {
    /// What the text of `list` says.
    pub(crate) fn read(text: &str) -> Option<Listed> {
        Listed::read_lines(text.lines())
    }

    fn read_lines<'a>(lines: impl IntoIterator<Item = &'a str>) -> Option<Listed> {
        let (mut word, mut codes) = (None, BTreeMap::new());
        let (mut subrs, mut glyphs) = (BTreeMap::new(), BTreeMap::new());
        for line in lines {
            match line.split(' ').collect::<Vec<_>>()[..] {
                ["encoding", name] => word = Some(Name::shown(name)?),
                ["code", code, name] => drop(codes.insert(code.parse().ok()?, Name::shown(name)?)),
                ["subr", index, length] => drop(subrs.insert(index.parse().ok()?, length.parse().ok()?)),
                ["glyph", name, length] => drop(glyphs.insert(Name::shown(name)?, length.parse().ok()?)),
                _ => return None,
            }
        }
        Some(Listed { encoding: word.map_or(Encoding::Codes(codes), Encoding::Word), subrs, glyphs })
    }
}

/// How wide a glyph is.
#[derive(Clone, Debug, PartialEq, Eq, Hash)]
pub enum Width {
    /// Its width.
    Drawn(Point),
    /// It can't be drawn: the name of its fault, such as `NestedSeac`.
    Undrawn(String),
}

impl Width {
    /// The name and the width behind `width`.
    fn read(rest: &str) -> Option<(Name, Width)> {
        match rest.split(' ').collect::<Vec<_>>()[..] {
            [name, "fault", fault] => Some((Name::shown(name)?, Width::Undrawn(fault.into()))),
            [name, x, y] => {
                let width = Point { x: Amount::shown(x)?, y: Amount::shown(y)? };
                Some((Name::shown(name)?, Width::Drawn(width)))
            }
            _ => None,
        }
    }
}

/// What [`list_full`](crate::list_full) answers. What the font's dictionary doesn't say is `None`.
///
/// A value of the dictionary is as the font spells it: white space is a blank, and any other byte that isn't visible, and the
/// backslash, is `\x` and two digits.
#[derive(Clone, Debug, PartialEq, Eq, Hash)]
#[non_exhaustive]
pub struct ListedInFull {
    /// What [`list`](crate::list) answers.
    pub listed: Listed,
    /// The FontName.
    pub name: Option<Name>,
    /// What stands within the brackets of the FontMatrix: six numbers, mostly.
    pub matrix: Option<String>,
    /// What stands within the brackets of the FontBBox: four numbers, mostly.
    pub bbox: Option<String>,
    /// The UniqueID: digits, mostly.
    pub unique_id: Option<String>,
    /// The width of each glyph, by its name.
    pub widths: BTreeMap<Name, Width>,
}

impl ListedInFull {
    /// What the text of `list --full` says.
    pub(crate) fn read(text: &str) -> Option<ListedInFull> {
        let (mut name, mut matrix, mut bbox, mut unique_id) = (None, None, None, None);
        let (mut widths, mut lines) = (BTreeMap::new(), Vec::new());
        for line in text.lines() {
            match line.split_once(' ') {
                Some(("name", value)) => name = Some(Name::shown(value)?),
                Some(("matrix", value)) => matrix = Some(value.into()),
                Some(("box", value)) => bbox = Some(value.into()),
                Some(("unique", value)) => unique_id = Some(value.into()),
                Some(("width", rest)) => widths.extend([Width::read(rest)?]),
                _ => lines.push(line),
            }
        }
        Some(ListedInFull { listed: Listed::read_lines(lines)?, name, matrix, bbox, unique_id, widths })
    }
}

#[cfg(test)]
mod tests {
    use super::{Checked, Listed, ListedInFull};

    #[test]
    fn texts_of_another_library() {
        for text in ["", "ok\n", "ok 1 glyphs, 2 subrs, weight 3", "ok 1 glyphs, 2 subrs, weight -3\n"] {
            assert_eq!(Checked::read(text), None, "{text}");
        }
        for text in ["glyph A\n", "kern A B 5\n", "code 256 A\n", "subr 65536 1\n", "encoding \\x\n"] {
            assert_eq!(Listed::read(text), None, "{text}");
            assert_eq!(ListedInFull::read(text), None, "{text}");
        }
        assert_eq!(Listed::read("name Tiny\n"), None);
        for text in ["name\n", "name \\x\n", "width A 5\n", "width A 5 0 0\n", "width A x 0\n", "width \\x 5 0\n"] {
            assert_eq!(ListedInFull::read(text), None, "{text}");
        }
    }
}
