//! What `check`, `list`, `list_full`, `show` and `mends` say of Tiny, and names that are no ASCII.

mod common;

use common::{example, made, Tiny, EMPTY};
use std::collections::BTreeMap;
use t1subset::{check, convert, list, list_full, mends, show, subset};
use t1subset::{Amount, Drawing, DrawnPart, Encoding, Form, Mark, Mend, Name, Picture, Point, Width};

/// The test whether Tiny was loaded before, and its name.
const TESTED: &[u8] =
    b"FontDirectory/Tiny known{/Tiny findfont dup/UniqueID known{dup/UniqueID get 7 eq exch/FontType get 1 eq and}
{pop false}ifelse{save true}{false}ifelse}{false}ifelse
/FontName /Tiny";

fn at(x: i32, y: i32) -> Point {
    Point { x: x.into(), y: y.into() }
}

fn picture(width: i32, bearing: i32, parts: &[(Point, &[Mark])]) -> Picture {
    let parts = parts.iter().map(|&(offset, marks)| DrawnPart { offset, marks: marks.into() }).collect();
    Picture::Drawn(Drawing { width: at(width, 0), bearing: at(bearing, 0), parts })
}

#[test]
fn checked() {
    let checked = check(&example("tiny.pfa")).unwrap();
    assert_eq!((checked.glyphs, checked.subrs, checked.weight), (11, 10, 4936));
}

#[test]
fn listed() {
    let font = example("tiny.pfa");
    let listed = list(&subset(&font, &["X"], Form::Pfa).unwrap()).unwrap();
    assert_eq!(listed.encoding, Encoding::Codes(BTreeMap::from([(65, "X".into())])));
    assert_eq!(listed.subrs, (0..).zip([11, 5, 5, 1, 1, 3, 1, 1, 1, 1]).collect());
    assert_eq!(listed.glyphs, BTreeMap::from([(".notdef".into(), 5), ("X".into(), 15)]));
    let none: [&str; 0] = [];
    let listed = list(&subset(&font, &none, Form::Pfa).unwrap()).unwrap();
    assert_eq!(listed.encoding, Encoding::Codes(BTreeMap::new()));
    let listed = list(&made("Word", &[], &[(b".notdef", EMPTY)])).unwrap();
    assert_eq!((listed.encoding, listed.subrs.len()), (Encoding::Word("StandardEncoding".into()), 0));
}

#[test]
fn listed_in_full() {
    let font = example("tiny.pfa");
    let full = list_full(&font).unwrap();
    assert_eq!(full.listed, list(&font).unwrap());
    let (matrix, bbox) = ("0.001 0 0 0.001 0 0", "0 0 500 700");
    assert_eq!(
        (full.name, full.matrix.as_deref(), full.bbox.as_deref()),
        (Some("Tiny".into()), Some(matrix), Some(bbox))
    );
    assert_eq!(full.unique_id, None);
    let names: Vec<&Name> = full.widths.keys().collect();
    assert_eq!(names, full.listed.glyphs.keys().collect::<Vec<_>>());
    for (name, units) in [(".notdef", 250), ("X", 300), ("acute", 300), ("Aacute", 500)] {
        assert_eq!(full.widths.get(name.as_bytes()), Some(&Width::Drawn(at(units, 0))), "{name}");
    }
    for (name, fault) in [("L", "Nesting"), ("N", "NestedSeac")] {
        assert_eq!(full.widths.get(name.as_bytes()), Some(&Width::Undrawn(fault.into())), "{name}");
    }
}

#[test]
fn values_as_they_are_spelled() {
    let spelled = |old: &[u8], new: &[u8]| list_full(&Tiny::new().with(old, new).file()).unwrap();
    let full = spelled(b"/FontMatrix [0.001 0 0 0.001 0 0]", b"/FontMatrix{ 1e-3 0\n0 .001\x800 0}");
    assert_eq!(full.matrix.as_deref(), Some(r" 1e-3 0 0 .001\x800 0"));
    assert_eq!(spelled(b"/FontBBox {0 0 500 700}", b"/FontBBox").bbox.as_deref(), Some("def"));
    assert_eq!(spelled(b"/FontName /Tiny", b"/FontName/T\xe9\\y").name, Some(b"T\xe9\\y"[..].into()));
    assert_eq!(spelled(b"/FontName /Tiny", b"/FontName /").name, None);
    assert_eq!(spelled(b"/FontName /Tiny", b"/FontNames /Tiny").name, None);
    let full = spelled(b"/FontName /Tiny", b"/UniqueID 5000793 def\n/FontName /Tiny");
    assert_eq!(full.unique_id.as_deref(), Some("5000793"));
}

#[test]
fn shown() {
    use Mark::{Close, Curve, Flex, Hstem, Line, Move, Replace};
    let font = example("tiny.pfa");
    let stem = |y: i32, dy: i32| Hstem(y.into(), dy.into());
    let x = [Move(at(50, 0)), Line(at(150, 0)), Line(at(150, 700)), Line(at(50, 700)), Close];
    let h = [stem(0, 20), Replace, stem(100, 20)];
    let (one, two) = ([at(110, 0), at(130, 5), at(150, 5)], [at(170, 5), at(190, 0), at(200, 0)]);
    let curves = [one, two].map(|it| Curve(it[0], it[1], it[2]));
    let f = [Move(at(100, 0)), Flex(50.into()), curves[0], curves[1], Close];
    assert_eq!(show(&font, "X").unwrap(), picture(300, 50, &[(at(0, 0), &x)]));
    assert_eq!(show(&font, b"H").unwrap(), picture(500, 0, &[(at(0, 0), &h)]));
    assert_eq!(show(&font, "F").unwrap(), picture(500, 0, &[(at(0, 0), &f)]));
    let base = [Move(at(0, 0)), Line(at(-100, 0)), Close];
    let accent = [Move(at(50, 0)), Line(at(150, 0)), Close];
    assert_eq!(show(&font, "Aacute").unwrap(), picture(500, 0, &[(at(0, 0), &base), (at(70, 200), &accent)]));
    assert_eq!(show(&font, "N").unwrap(), Picture::Undrawn("NestedSeac".into()));
    assert_eq!(show(&font, "L").unwrap().drawing(), None);
}

#[test]
fn each_hint_and_amounts_that_are_not_whole() {
    // `0 250 hsbw 1 2 3 4 5 6 hstem3 1 2 3 4 5 6 vstem3 7 8 vstem dotsection 1 3 div -1 3 div rmoveto endchar`, of
    // which a third is cut toward zero.
    let six = b"\x8c\x8d\x8e\x8f\x90\x91\x0c";
    let plain = [
        &b"\x8b\xf7\x8e\x0d"[..],
        six,
        b"\x02",
        six,
        b"\x01\x92\x93\x03\x0c\x00\x8c\x8e\x0c\x0c\x8a\x8e\x0c\x0c\x15\x0e",
    ]
    .concat();
    let pairs = [(1, 2), (3, 4), (5, 6)].map(|(edge, size): (i32, i32)| (edge.into(), size.into()));
    let third = Amount::from_count(21845);
    let marks = [
        Mark::Hstem3(pairs),
        Mark::Vstem3(pairs),
        Mark::Vstem(7.into(), 8.into()),
        Mark::Dot,
        Mark::Move(Point { x: third, y: Amount::from_count(-21845) }),
    ];
    let font = Tiny::new().with_charstring(b"/A", &plain).file();
    assert_eq!(show(&font, "A").unwrap(), picture(250, 0, &[(at(0, 0), &marks)]));
    assert_eq!((third.to_string().as_str(), third.to_f64()), ("21845/65536", 21845.0 / 65536.0));
}

fn mend(what: &str, at: u64) -> Mend {
    Mend { what: what.into(), at }
}

/// What stands in Tiny, and what stands there instead; what is mended of it, and where.
type Row = (&'static [u8], &'static [u8], &'static str, u64);

#[test]
fn mended() {
    let rows: [Row; 4] = [
        (b"dup 65 ", b"% a comment\ndup 65 ", "comment in Encoding", 195),
        (b"dup 65 /X put", b"dup 66 /X put\ndup dup 65 exch 66 get put", "code copied", 209),
        (b"dup 0 ", b"% a comment\ndup 0 ", "comment in Subrs", 269),
        (b"/FontName /Tiny", TESTED, "test of FontDirectory taken out", 44),
    ];
    for (old, new, what, at) in rows {
        assert_eq!(mends(&Tiny::new().with(old, new).file()).unwrap(), [mend(what, at)]);
    }
    let font = made("Word", &[], &[(b".notdef", EMPTY)]);
    let readonly = String::from_utf8(font).unwrap().replace("StandardEncoding def", "StandardEncoding readonly def");
    assert_eq!(mends(readonly.as_bytes()).unwrap(), [mend("readonly Encoding", 23)]);
    let mends = mends(&Tiny::spelled().file()).unwrap();
    assert_eq!(mends, [mend("comment in Encoding", 195), mend("comment in Subrs", 269)]);
}

#[test]
fn names_that_are_no_ascii() {
    for (name, printed) in
        [(&b"a\\b"[..], r"a\x5cb"), ("é".as_bytes(), r"\xc3\xa9"), (b"\xff\x80", r"\xff\x80"), (b"\\x41", r"\x5cx41")]
    {
        let mut glyphs = [(&b".notdef"[..], EMPTY), (name, EMPTY)];
        glyphs.sort();
        let font = made("Names", &[], &glyphs);
        assert!(convert(&font, Form::Pfa).unwrap() == font, "{printed}");
        let listed = list(&font).unwrap();
        let found: Vec<&Name> = listed.glyphs.keys().filter(|it| **it != ".notdef").collect();
        assert_eq!((found[0].as_bytes(), found[0].to_string().as_str()), (name, printed));
        assert_eq!(listed.glyphs.get(name), Some(&5));
        assert!(subset(&font, &found, Form::Pfa).unwrap() == font, "{printed}");
    }
}
