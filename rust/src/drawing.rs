//! What glyphs draw.

use std::fmt;

/// An amount in font units, exactly: a count of 1/65536 unit.
///
/// ```
/// use t1subset::Amount;
/// assert_eq!(Amount::from_count(65536 / 2).to_f64(), 0.5);
/// assert_eq!(Amount::from(250).to_string(), "250");
/// ```
#[derive(Clone, Copy, Debug, Default, PartialEq, Eq, PartialOrd, Ord, Hash)]
pub struct Amount(i64);

impl Amount {
    /// So many 1/65536 of a unit.
    pub const fn from_count(count: i64) -> Amount {
        Amount(count)
    }

    /// How many 1/65536 of a unit it is.
    pub const fn count(self) -> i64 {
        self.0
    }

    /// The amount in units. It is exact up to 2^53 counts, and what a glyph draws stays below 2^50.
    pub fn to_f64(self) -> f64 {
        self.0 as f64 / 65536.0
    }

    /// The amount that is printed so.
    pub(crate) fn shown(text: &str) -> Option<Amount> {
        match text.strip_suffix("/65536") {
            Some(count) => count.parse().ok().map(Amount),
            None => text.parse::<i64>().ok()?.checked_mul(65536).map(Amount),
        }
    }
}

/// Whole units.
impl From<i32> for Amount {
    fn from(units: i32) -> Amount {
        Amount(i64::from(units) * 65536)
    }
}

/// Whole units as a number, any other amount as its count and `/65536`, as the program t1subset prints it.
impl fmt::Display for Amount {
    fn fmt(&self, f: &mut fmt::Formatter<'_>) -> fmt::Result {
        if self.0 % 65536 == 0 {
            write!(f, "{}", self.0 / 65536)
        } else {
            write!(f, "{}/65536", self.0)
        }
    }
}

/// A place or a distance.
#[derive(Clone, Copy, Debug, Default, PartialEq, Eq, Hash)]
pub struct Point {
    /// To the right.
    pub x: Amount,
    /// Upwards.
    pub y: Amount,
}

/// A mark of a drawing. Stems are as the charstring has them: from the side bearing point.
#[derive(Clone, Copy, Debug, PartialEq, Eq, Hash)]
#[non_exhaustive]
pub enum Mark {
    /// A path begins here.
    Move(Point),
    /// A straight line to here.
    Line(Point),
    /// A curve: two control points, and its end.
    Curve(Point, Point, Point),
    /// The path is closed.
    Close,
    /// A horizontal stem: its lower edge, and its height.
    Hstem(Amount, Amount),
    /// A vertical stem: its left edge, and its width.
    Vstem(Amount, Amount),
    /// Three horizontal stems.
    Hstem3([(Amount, Amount); 3]),
    /// Three vertical stems.
    Vstem3([(Amount, Amount); 3]),
    /// A section of dots begins or ends.
    Dot,
    /// The hints are replaced.
    Replace,
    /// The next two curves are a flex of this height.
    Flex(Amount),
}

/// A part of a glyph.
#[derive(Clone, Debug, PartialEq, Eq, Hash)]
pub struct DrawnPart {
    /// Where it stands in the glyph.
    pub offset: Point,
    /// Its marks, in its own coordinates.
    pub marks: Vec<Mark>,
}

/// What a glyph draws.
#[derive(Clone, Debug, PartialEq, Eq, Hash)]
pub struct Drawing {
    /// From its origin to that of the next glyph.
    pub width: Point,
    /// The left side bearing.
    pub bearing: Point,
    /// An accented glyph has two parts, any other has one.
    pub parts: Vec<DrawnPart>,
}

/// What [`show`](crate::show) answers.
#[derive(Clone, Debug, PartialEq, Eq, Hash)]
pub enum Picture {
    /// What the glyph draws.
    Drawn(Drawing),
    /// It can't be drawn: the name of its fault, such as `NestedSeac`.
    Undrawn(String),
}

impl Picture {
    /// What the glyph draws, if it can be drawn.
    pub fn drawing(&self) -> Option<&Drawing> {
        match self {
            Picture::Drawn(drawing) => Some(drawing),
            Picture::Undrawn(_) => None,
        }
    }

    /// What the text of `show` says.
    pub(crate) fn read(text: &str) -> Option<Picture> {
        let mut lines = text.lines();
        let first = lines.next()?;
        if let Some(fault) = first.strip_prefix("fault ") {
            return Some(Picture::Undrawn(fault.into()));
        }
        let width = point(first, "width")?;
        let bearing = point(lines.next()?, "bearing")?;
        let mut parts: Vec<DrawnPart> = Vec::new();
        for line in lines {
            if let Some(offset) = point(line, "part") {
                parts.push(DrawnPart { offset, marks: Vec::new() });
            } else {
                parts.last_mut()?.marks.push(mark(line)?);
            }
        }
        Some(Picture::Drawn(Drawing { width, bearing, parts }))
    }
}

/// The word of a line, and its numbers.
fn words(line: &str) -> Option<(&str, Vec<Amount>)> {
    let mut words = line.split(' ');
    let word = words.next()?;
    Some((word, words.map(Amount::shown).collect::<Option<_>>()?))
}

fn point(line: &str, wanted: &str) -> Option<Point> {
    match words(line)? {
        (word, numbers) if word == wanted && numbers.len() == 2 => Some(Point { x: numbers[0], y: numbers[1] }),
        _ => None,
    }
}

fn mark(line: &str) -> Option<Mark> {
    let (word, numbers) = words(line)?;
    let at = |x, y| Point { x, y };
    Some(match (word, numbers.as_slice()) {
        ("move", &[x, y]) => Mark::Move(at(x, y)),
        ("line", &[x, y]) => Mark::Line(at(x, y)),
        ("curve", &[a, b, c, d, e, f]) => Mark::Curve(at(a, b), at(c, d), at(e, f)),
        ("close", []) => Mark::Close,
        ("hstem", &[y, dy]) => Mark::Hstem(y, dy),
        ("vstem", &[x, dx]) => Mark::Vstem(x, dx),
        ("hstem3", &[a, b, c, d, e, f]) => Mark::Hstem3([(a, b), (c, d), (e, f)]),
        ("vstem3", &[a, b, c, d, e, f]) => Mark::Vstem3([(a, b), (c, d), (e, f)]),
        ("dot", []) => Mark::Dot,
        ("replace", []) => Mark::Replace,
        ("flex", &[height]) => Mark::Flex(height),
        _ => return None,
    })
}

#[cfg(test)]
mod tests {
    use super::Picture;

    #[test]
    fn texts_of_another_library() {
        for text in [
            "",
            "width 1 0\n",
            "bearing 0 0\nwidth 1 0\n",
            "width 1 0\nbearing 0 0\nmove 1 0\n",
            "width 1 0\nbearing 0 0\npart 0\n",
            "width 1 0\nbearing 0 0\npart 0 0\nmove 1\n",
            "width 1 0\nbearing 0 0\npart 0 0\nspline 1 0\n",
            "width 1 0\nbearing 0 0\npart 0 0\nline 1/2 0\n",
        ] {
            assert_eq!(Picture::read(text), None, "{text}");
        }
    }
}
