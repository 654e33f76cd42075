//! Where fonts stand in documents.

use crate::name::Name;

/// A place of a font, as [`fonts`](crate::fonts) answers it.
#[derive(Clone, Debug, PartialEq, Eq, Hash)]
pub struct Placed {
    /// The place of the document among those that were given, from 0.
    pub document: usize,
    /// Where the font begins in the document, from 0.
    pub offset: usize,
    /// The name of the font.
    pub name: Name,
    /// How many glyphs the font has.
    pub glyphs: usize,
    /// How many embedded documents are open there.
    pub depth: usize,
    /// Why the fonts of this name don't rejoin, so that they stay as they are. `None` if they are joined.
    pub reason: Option<String>,
}

impl Placed {
    /// What the text of `fonts` says.
    pub(crate) fn read(text: &str) -> Option<Vec<Placed>> {
        let mut lines: Vec<&str> = text.lines().collect();
        let counted = lines.pop()?;
        let places: usize = counted.split_once(" places, ")?.0.parse().ok()?;
        if places != lines.len() {
            return None;
        }
        lines.into_iter().map(Placed::shown).collect()
    }

    /// The place that is printed so.
    fn shown(line: &str) -> Option<Placed> {
        let (document, rest) = line.split_once(": ")?;
        let mut words = rest.splitn(5, ' ');
        let offset = words.next()?.parse().ok()?;
        let name = Name::shown(words.next()?)?;
        let glyphs = words.next()?.parse().ok()?;
        let depth = words.next()?.parse().ok()?;
        let reason = match words.next()? {
            "joined" => None,
            kept => Some(kept.strip_prefix("kept: ")?.to_owned()),
        };
        Some(Placed { document: document.parse().ok()?, offset, name, glyphs, depth, reason })
    }
}

#[cfg(test)]
mod tests {
    use super::Placed;

    #[test]
    fn texts_of_another_library() {
        let (place, last) = ("0: 1 A 2 0 joined\n", "1 places, 1 names, 0 kept\n");
        assert_eq!(Placed::read(&[place, last].concat()).map(|places| places.len()), Some(1));
        for text in [[place, ""], ["", last], [last, place], ["0: 1 A 2 joined\n", last], ["0: 1 A 2 0 kept\n", last]] {
            assert_eq!(Placed::read(&text.concat()), None, "{text:?}");
        }
        assert_eq!(Placed::read(""), None);
    }
}
