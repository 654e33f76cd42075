//! Each refusal: its number, text, detail and input. The texts are those of t1subset.h, the offsets those of
//! docs/VECTORS.md.

mod common;

use common::{example, made, Tiny, EMPTY, STUB};
use std::fmt::Debug;
use t1subset::{
    check, convert, extract, fonts, join, level, list, list_full, mend, mends, merge, pool, rejoin, show, subset,
};
use t1subset::{
    diff_within, merge_within, rejoin_within, subset_codes, subset_within, Form, Limits, Number, Part, Refused,
};

/// One byte more than a file may have.
const LONG: usize = 268_435_457;

const NOTHING: Limits = Limits { tokens: 0 };

#[track_caller]
fn refused<T: Debug>(
    done: Result<T, Refused>,
    number: Number,
    text: &str,
    detail: u64,
    input: Option<usize>,
) -> Refused {
    let why = done.unwrap_err();
    assert_eq!((why.number, why.text.as_str(), why.detail, why.input), (number, text, detail, input));
    assert_eq!(why.to_string(), text);
    why
}

/// A file that is refused for itself, by each call.
#[track_caller]
fn refused_file(font: &[u8], number: Number, text: &str, detail: u64) {
    let pfa = example("tiny.pfa");
    refused(check(font), number, text, detail, Some(0));
    refused(list(font), number, text, detail, Some(0));
    refused(list_full(font), number, text, detail, Some(0));
    refused(show(font, "nosuch"), number, text, detail, Some(0));
    refused(convert(font, Form::Pfa), number, text, detail, Some(0));
    refused(mend(font, Form::Pfa), number, text, detail, Some(0));
    refused(mends(font), number, text, detail, Some(0));
    refused(subset(font, &["nosuch"], Form::Pfa), number, text, detail, Some(0));
    refused(subset_codes(font, &["nosuch"], b"C", Form::Pfa), number, text, detail, Some(0));
    refused(merge(&[&pfa[..], font, b""], Form::Pfa), number, text, detail, Some(1));
    refused(rejoin(&[&pfa[..], &pfa, font], Form::Pfa), number, text, detail, Some(2));
    refused(subset_within(font, &["nosuch"], b"C", Form::Pfa, &NOTHING), number, text, detail, Some(0));
    refused(merge_within(&[&pfa[..], font, b""], Form::Pfa, &NOTHING), number, text, detail, Some(1));
    refused(rejoin_within(&[&pfa[..], &pfa, font], Form::Pfa, &NOTHING), number, text, detail, Some(2));
    refused(diff_within(font, b"", &NOTHING), number, text, detail, Some(0));
    refused(diff_within(&pfa, font, &NOTHING), number, text, detail, Some(1));
}

#[test]
fn files() {
    let (pfa, pfb) = (example("tiny.pfa"), example("tiny.pfb"));
    refused_file(&pfb[..1000], Number::BadSegment, "bad segment at 319", 319);
    refused_file(&pfa[..312], Number::NoEexec, "no eexec", 0);
    refused_file(&pfa[..313], Number::ShortCipher, "cipher too short", 0);
    refused_file(&vec![0; LONG], Number::FileTooLong, "file too long", 0);
}

/// What stands in Tiny, and what stands there instead; the refusal.
type Row = (&'static [u8], &'static [u8], Number, &'static str, u64);

#[test]
fn files_that_spell_no_font() {
    let rows: [Row; 10] = [
        (b"/Encoding", b"/Encoded", Number::NoEncoding, "no Encoding", 0),
        (b"dup 65 /X", b"dup 256 /X", Number::BadEncoding, "bad Encoding at 195", 195),
        (b"/CharStrings", b"/Charstrings", Number::NoCharStrings, "no CharStrings", 0),
        (b"/Subrs 10", b"/lenIV -1 def\n/Subrs 10", Number::BadLenIv, "bad lenIV", 0),
        (b"dup 0 15 RD ", b"dup 0 3 RD ", Number::BadSubrs, "bad Subrs at 269", 269),
        (b"/.notdef 9 RD ", b"/.notdef 3 RD ", Number::BadCharStrings, "bad CharStrings at 546", 546),
        (b"2 index", b"/Subrs 0 array ND 2 index", Number::Hybrid, "hybrid font", 0),
        (b"closefile", b"closefil", Number::NoClosefile, "no closefile", 0),
        (b"/.notdef 9", b"/.notdeg 9", Number::NoNotdef, "no .notdef", 0),
        (b"/Subrs 10", b"/Subrs 65536", Number::FontLimit, "over a limit", 0),
    ];
    for (old, new, number, text, detail) in rows {
        refused_file(&Tiny::new().with(old, new).file(), number, text, detail);
    }
}

#[test]
fn names() {
    let font = example("tiny.pfa");
    refused(subset(&font, &["X", "Zed", "Zet"], Form::Pfa), Number::NoGlyph, "no glyph Zed", 0, None);
    refused(show(&font, b"Zed"), Number::NoGlyph, "no glyph Zed", 0, None);
    refused(show(&font, "É\\"), Number::NoGlyph, r"no glyph \xc3\x89\x5c", 0, None);
    refused(subset(&font, &[b"\xff\0"], Form::Pfa), Number::NoGlyph, r"no glyph \xff\x00", 0, None);
    refused(subset_codes(&font, &["Zed"], b"AB", Form::Pfa), Number::NoGlyph, "no glyph Zed", 0, None);
    refused(subset_codes(&font, &["Zed"], b"ACD", Form::Pfa), Number::NoCode, "no code 67", 67, None);
    refused(subset_codes::<&str>(&font, &[], b"\0", Form::Pfa), Number::NoCode, "no code 0", 0, None);
    let within = |names: &[&str], codes: &[u8]| subset_within(&font, names, codes, Form::Pfa, &NOTHING);
    refused(within(&["Zed"], b"AB"), Number::NoGlyph, "no glyph Zed", 0, None);
    refused(within(&["Zed"], b"ACD"), Number::NoCode, "no code 67", 67, None);
}

#[test]
fn tokens() {
    // .notdef executes 4 tokens, and A 9 with those of Subr 4.
    let calls_4 = &b"\x8b\xf7\x8e\x0d\x8f\x0a\x0e"[..];
    let subrs = [&[STUB; 4][..], &[b"\xef\x16\x0b"]].concat();
    let font = made("Made", &subrs, &[(b".notdef", EMPTY), (b"A", calls_4)]);
    let too_many = |done| refused(done, Number::TooManyTokens, "too many tokens", 0, None);
    too_many(subset_within::<&str>(&font, &[], b"", Form::Pfa, &Limits { tokens: 3 }));
    too_many(subset_within::<&str>(&font, &[], b"A", Form::Pfa, &Limits { tokens: 12 }));
    too_many(merge_within(&[&font, &font], Form::Pfa, &Limits { tokens: 25 }));
    too_many(rejoin_within(&[&font, &font], Form::Pfa, &Limits { tokens: 25 }));
    too_many(diff_within(&font, &font, &Limits { tokens: 25 }));
    for tokens in [0, 1, 12] {
        let limits = Limits { tokens };
        too_many(subset_within(&font, &["A"], b"", Form::Pfb, &limits));
        too_many(merge_within(&[&font], Form::Pfb, &limits));
        too_many(rejoin_within(&[&font], Form::Pfb, &limits));
    }
}

#[test]
fn parts() {
    let tiny = Tiny::new();
    let table = &tiny.clear[tiny.clear.windows(9).position(|it| it == b"256 array").unwrap()..];
    let table = &table[..table.windows(12).position(|it| it == b"readonly def").unwrap()];
    let rows = [
        (Part::Head, 0, "head", tiny.with(b"/FontName /Tiny", b"/FontName /Tine")),
        (Part::Encoding, 1, "encoding", tiny.with(&[table, b"readonly def"].concat(), b"StandardEncoding def")),
        (Part::ClearTail, 2, "clear tail", tiny.with(b"{0 0 500 700}", b"{0 0 500 701}")),
        (Part::Private, 3, "private", tiny.with(b"5839", b"5840")),
        (Part::SubrsTable, 4, "Subrs table", tiny.with(b"/Subrs 10", b"/Subrs 11")),
        (Part::SubrsWords, 5, "Subrs words", tiny.with_all(b" NP\n", b" put\n", 10)),
        (Part::Middle, 6, "middle", tiny.with(b"2 index", b"3 index")),
        (Part::GlyphsWords, 7, "CharStrings words", tiny.with_all(b" ND\n", b" def\n", 11)),
        (Part::Tail, 8, "tail", tiny.with(b"definefont pop", b"definefont  pop")),
    ];
    for (part, detail, name, other) in rows {
        let merged = merge(&[tiny.file(), other.file()], Form::Pfa);
        let why = refused(merged, Number::ShellsDiffer, &format!("shells differ in {name}"), detail, None);
        assert_eq!(why.part(), Some(part));
        assert_eq!(merge_within(&[tiny.file(), other.file()], Form::Pfa, &NOTHING), Err(why));
        let told = diff_within(&tiny.file(), &other.file(), &NOTHING);
        refused(told, Number::TooManyTokens, "too many tokens", 0, None);
    }
}

#[test]
fn entries() {
    let tiny = Tiny::new();
    let font = tiny.file();
    let recoded = tiny.with(b"dup 66 /Y", b"dup 66 /X").file();
    let why = refused(merge(&[&font, &recoded], Form::Pfa), Number::CodeDiffers, "code 66 differs", 66, None);
    assert_eq!(why.part(), None);
    let other = tiny.with_charstring(b"/B", b"\x0e").with_charstring(b"/A", b"\x0e").file();
    refused(merge(&[&font, &other], Form::Pfa), Number::GlyphDiffers, "glyph A differs", 0, None);
    let lacking = subset(&tiny.without(b"/acute").file(), &["Aacute"], Form::Pfa).unwrap();
    let whole = subset(&font, &["acute"], Form::Pfa).unwrap();
    let text = "glyph Aacute lacks part acute";
    refused(merge(&[&lacking, &whole], Form::Pfa), Number::GlyphLacksPart, text, 0, None);
    let one = subset(&font, &["Y"], Form::Pfa).unwrap();
    let two = subset(&tiny.with_charstring(b"dup 5", b"\x0b").file(), &["X"], Form::Pfa).unwrap();
    refused(merge(&[&one, &two], Form::Pfa), Number::SubrDiffers, "subr 5 differs, used by X", 5, None);
    refused(rejoin(&[&two, &one], Form::Pfa), Number::SubrDiffers, "subr 5 differs, used by X", 5, None);
    let short = tiny.without(b"dup 5").file();
    refused(rejoin(&[&font, &short], Form::Pfa), Number::GlyphLacksSubr, "glyph X lacks subr 5", 5, None);
    refused(rejoin(&[&short, &other, &font], Form::Pfa), Number::GlyphLacksSubr, "glyph X lacks subr 5", 5, None);
    let hinted = subset(&tiny.with_charstring(b"dup 1", b"\x8b\x0b").file(), &["Y"], Form::Pfa).unwrap();
    refused(merge(&[&one, &hinted], Form::Pfa), Number::SubrDiffers, "subr 1 differs", 1, None);
}

#[test]
fn merged_fonts_over_a_limit() {
    let many = |first: usize| {
        let names: Vec<_> = (first..first + 40_000).map(|at| format!("g{at:05}").into_bytes()).collect();
        let mut glyphs: Vec<(&[u8], &[u8])> = vec![(b".notdef", EMPTY)];
        glyphs.extend(names.iter().map(|name| (name.as_slice(), EMPTY)));
        made("Many", &[], &glyphs)
    };
    let merged = merge(&[many(0), many(40_000)], Form::Pfa);
    refused(merged, Number::MergeLimit, "over a limit", 0, None);
}

#[test]
fn no_fonts() {
    let none: [&[u8]; 0] = [];
    refused(merge(&none, Form::Pfa), Number::NothingToMerge, "nothing to merge", 0, None);
    refused(rejoin(&none, Form::Pfa), Number::NothingToMerge, "nothing to merge", 0, None);
    refused(merge_within(&none, Form::Pfa, &NOTHING), Number::NothingToMerge, "nothing to merge", 0, None);
    refused(rejoin_within(&none, Form::Pfa, &NOTHING), Number::NothingToMerge, "nothing to merge", 0, None);
}

#[test]
fn listings() {
    let line = b"S 5 0b\n";
    refused(join(line, b"S 65535 0b\n"), Number::BadLine, "bad line 1", 1, Some(1));
    refused(join(b"S 5 0b\nno listing", b"no listing"), Number::BadLine, "bad line 2", 2, Some(0));
    refused(join(&[*line, *line].concat(), b""), Number::RepeatedLine, "repeated in line 2", 2, Some(0));
    refused(join(line, b"S 5 ef060b\n"), Number::ListedSubrDiffers, "subr 5 differs", 5, None);
    refused(join(b"G X 0b\n", b"G X 0e\n"), Number::ListedGlyphDiffers, "glyph X differs", 0, None);
    refused(join(line, &vec![0; LONG]), Number::FileTooLong, "file too long", 0, Some(1));
}

#[test]
fn documents() {
    let (document, long, other) = (&b"%!PS\nshowpage\n"[..], &[b"%!", &vec![0; LONG - 2][..]].concat()[..], &b"%PDF-1.7"[..]);
    refused(extract("Tiny", &[document]), Number::NoFont, "no font Tiny", 0, None);
    refused(extract("É\\", &[document]), Number::NoFont, r"no font \xc3\x89\x5c", 0, None);
    refused(extract("Tiny", &[document, long]), Number::FileTooLong, "file too long", 0, Some(1));
    refused(fonts(&[long, document]), Number::FileTooLong, "file too long", 0, Some(0));
    refused(level(&[document, document, long]), Number::FileTooLong, "file too long", 0, Some(2));
    refused(pool(&[document, long]), Number::FileTooLong, "file too long", 0, Some(1));
    refused(pool(&[document, &long[..LONG - 1]]), Number::FileTooLong, "file too long", 0, None);
    refused(pool(&[document, other]), Number::NoDocument, "no document: a PDF file", 0, Some(1));
    refused(level(&[document, document, other]), Number::NoDocument, "no document: a PDF file", 0, Some(2));
    refused(fonts(&[other, document]), Number::NoDocument, "no document: a PDF file", 0, Some(0));
    refused(extract("Tiny", &[other]), Number::NoDocument, "no document: a PDF file", 0, Some(0));
}

#[test]
fn a_refusal_is_an_error() {
    let why: Box<dyn std::error::Error + Send + Sync> = check(b"").unwrap_err().into();
    assert_eq!(why.to_string(), "no eexec");
}
