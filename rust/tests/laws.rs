//! What holds between the calls, of Tiny and of installed fonts.

mod common;

use common::{before_pooled, document, each_font, example, made, some_names, EMPTY, STUB};
use std::thread;
use t1subset::{
    check, convert, diff, extract, fonts, join, level, list, list_full, mend, mends, merge, pool, pool_with, rejoin, show,
    subset,
};
use t1subset::{diff_within, merge_within, rejoin_within, subset_codes, subset_within, Form, Limits, Pooling};

const TAGS: Pooling = Pooling { tags: true, dsc: false };
const DSC: Pooling = Pooling { tags: false, dsc: true };

#[test]
fn subsets_merge_in_any_order_to_the_subset_of_all() {
    for (path, font) in each_font() {
        let names = some_names(&font);
        let one = subset(&font, &names[..2], Form::Pfa).unwrap();
        let two = subset(&font, &names[2..3], Form::Pfb).unwrap();
        let rest = subset(&font, &names[2..], Form::Pfa).unwrap();
        for form in [Form::Pfa, Form::Pfb] {
            let whole = subset(&font, &names, form).unwrap();
            for order in [[&one, &two, &rest], [&two, &rest, &one], [&rest, &one, &two], [&rest, &two, &one]] {
                assert!(merge(&order, form).unwrap() == whole, "{path}");
                assert!(rejoin(&order, form) == rejoin(&[&whole], form), "{path}");
            }
        }
    }
}

#[test]
fn a_glyph_draws_in_a_subset_as_in_the_font() {
    for (path, font) in each_font() {
        let names = some_names(&font);
        let cut = subset(&font, &names, Form::Pfa).unwrap();
        for name in &names {
            assert_eq!(show(&cut, name), show(&font, name), "{path}: {name}");
        }
    }
}

#[test]
fn a_font_has_one_file_in_each_form() {
    for (path, font) in each_font() {
        let (pfa, pfb) = (convert(&font, Form::Pfa).unwrap(), convert(&font, Form::Pfb).unwrap());
        assert_eq!((&pfa[..1], &pfb[..2]), (&b"%"[..], &b"\x80\x01"[..]), "{path}");
        assert!(convert(&pfb, Form::Pfa).unwrap() == pfa && convert(&pfa, Form::Pfb).unwrap() == pfb, "{path}");
        assert_eq!(list_full(&pfa), list_full(&font), "{path}");
    }
}

#[test]
fn a_mended_font_is_mended() {
    for (path, font) in each_font() {
        let (pfa, pfb) = (mend(&font, Form::Pfa).unwrap(), mend(&font, Form::Pfb).unwrap());
        for mended in [&pfa, &pfb] {
            assert!(mend(mended, Form::Pfa).unwrap() == pfa && mend(mended, Form::Pfb).unwrap() == pfb, "{path}");
            assert!(convert(mended, Form::Pfa).unwrap() == pfa, "{path}");
            assert_eq!(mends(mended).unwrap(), [], "{path}");
        }
        assert_eq!(mends(&font).unwrap().is_empty(), pfa == convert(&font, Form::Pfa).unwrap(), "{path}");
    }
}

#[test]
fn codes_are_their_names() {
    let font = example("tiny.pfa");
    let rows: [(&[u8], &[&str]); 4] =
        [(b"", &[]), (b"A", &["X"]), (b"B\xc2B", &["Y", "H"]), (b"BA\xc2", &["X", "Y", "H"])];
    for (codes, names) in rows {
        let named = subset(&font, names, Form::Pfb).unwrap();
        assert!(subset_codes::<&str>(&font, &[], codes, Form::Pfb).unwrap() == named, "{codes:?}");
        let more = merge(&[named, subset(&font, &["A"], Form::Pfa).unwrap()], Form::Pfb).unwrap();
        assert!(subset_codes(&font, &["A"], codes, Form::Pfb).unwrap() == more, "{codes:?}");
    }
    let glyphs: Vec<(&[u8], &[u8])> =
        [".notdef", "A", "circumflex", "eacute", "quotesingle"].map(|it| (it.as_bytes(), EMPTY)).into();
    let standard = made("Standard", &[], &glyphs);
    let kept = list(&subset_codes::<&str>(&standard, &[], "Aé".as_bytes(), Form::Pfa).unwrap()).unwrap().glyphs;
    let kept: Vec<_> = kept.into_keys().map(|name| name.to_string()).collect();
    assert_eq!(kept, [".notdef", "A", "circumflex", "quotesingle"]);
}

#[test]
fn tokens_that_are_enough() {
    for (path, font) in each_font() {
        let names = some_names(&font);
        let one = subset(&font, &names[..2], Form::Pfa).unwrap();
        let parts = [&one, &subset(&font, &names[2..], Form::Pfb).unwrap()];
        // No glyph executes more than 100,000 tokens by one answer to hint replacement.
        let tokens = 400_000 * list(&font).unwrap().glyphs.len() as u64;
        for limits in [Limits { tokens }, Limits::default()] {
            assert!(subset_within(&font, &names[..2], b"", Form::Pfa, &limits).unwrap() == one, "{path}");
            assert!(merge_within(&parts, Form::Pfb, &limits) == merge(&parts, Form::Pfb), "{path}");
            assert!(rejoin_within(&parts, Form::Pfa, &limits) == rejoin(&parts, Form::Pfa), "{path}");
            assert_eq!(diff_within(parts[0], parts[1], &limits).unwrap(), b"", "{path}");
        }
    }
    // .notdef and A execute 4 tokens each, by either answer.
    let font = made("Small", &[STUB; 4], &[(b".notdef", EMPTY), (b"A", EMPTY)]);
    let limits = Limits { tokens: 16 };
    assert!(subset_within::<&str>(&font, &[], b"A", Form::Pfa, &limits).unwrap() == font);
    assert!(merge_within(&[&font], Form::Pfa, &limits).unwrap() == font);
    assert!(rejoin_within(&[&font], Form::Pfa, &limits).unwrap() == font);
    let other = made("Other", &[STUB; 4], &[(b".notdef", EMPTY), (b"A", EMPTY)]);
    let told = diff_within(&font, &other, &Limits { tokens: 32 }).unwrap();
    assert_eq!(told, b"shells differ in head\n");
}

#[test]
fn tiny_in_both_forms() {
    let (pfa, pfb) = (example("tiny.pfa"), example("tiny.pfb"));
    for font in [&pfa, &pfb] {
        assert!(convert(font, Form::default()).unwrap() == pfa);
        assert!(convert(font, Form::Pfb).unwrap() == pfb);
    }
}

#[test]
fn subsets_that_another_program_cut_rejoin() {
    let (across, up) = (&b"\xef\x16\x0b"[..], &b"\xef\x04\x0b"[..]);
    let (calls_4, calls_5) = (&b"\x8b\xf7\x8e\x0d\x8f\x0a\x0e"[..], &b"\x8b\xf7\x8e\x0d\x90\x0a\x0e"[..]);
    let stubs = [STUB; 5];
    let one = made("ABCDEF+Small", &[&stubs[..4], &[across]].concat(), &[(b".notdef", EMPTY), (b"A", calls_4)]);
    let two = made("ZYXWVU+Small", &[&stubs[..5], &[up]].concat(), &[(b".notdef", EMPTY), (b"B", calls_5)]);
    let glyphs: [(&[u8], &[u8]); 3] = [(b".notdef", EMPTY), (b"A", calls_4), (b"B", calls_5)];
    let both = made("Small", &[&stubs[..4], &[across, up]].concat(), &glyphs);
    for order in [[&one, &two], [&two, &one]] {
        assert!(rejoin(&order, Form::Pfa).unwrap() == both);
        assert!(rejoin(&order, Form::Pfb) == convert(&both, Form::Pfb));
    }
}

#[test]
fn fonts_that_merge_differ_in_nothing() {
    let font = example("tiny.pfa");
    let (one, other) = (subset(&font, &["X"], Form::Pfa).unwrap(), subset(&font, &["Y"], Form::Pfb).unwrap());
    assert_eq!(diff(&one, &other).unwrap(), b"");
    let stubs = [STUB; 4];
    let head = made("Other", &stubs, &[(b".notdef", EMPTY)]);
    assert_eq!(diff(&head, &made("Small", &stubs, &[(b".notdef", EMPTY)])).unwrap(), b"shells differ in head\n");
    assert!(diff(&font, b"no font").is_err());
}

#[test]
fn fonts_of_documents_join() {
    let font = example("tiny.pfa");
    let cut = |names: &[&str]| document("Tiny", &subset(&font, names, Form::Pfa).unwrap());
    let (one, other, both) = (cut(&["X"]), cut(&["Y"]), cut(&["X", "Y"]));
    let joined = subset(&font, &["X", "Y"], Form::Pfa).unwrap();
    let (before, line) = (before_pooled("Tiny", &joined), document("Tiny", b"/Tiny /pool:Tiny findfont definefont pop\n"));
    assert!(pool(&[&one, &other, &one]).unwrap() == [&before[..], &line, &line, &line].concat());
    assert!(pool(&[&one[..], b"\x04%!showpage\x04"]).unwrap() == [&one[..], b"%!showpage"].concat());
    assert!(level(&[&one[..], b"\x04%!", &other]).unwrap() == [&both[..], b"\x04%!", &both]);
    let none: [&[u8]; 0] = [];
    assert_eq!((pool(&none), level(&none)), (Ok(Vec::new()), Ok(Vec::new())));
    assert!(extract("Tiny", &[&b"%!PS\n"[..], &document("Tiny", &font), &one]).unwrap() == font);
    let places = fonts(&[&one[..], b"%!", &other]).unwrap();
    let places: Vec<_> = places.iter().map(|it| (it.document, it.offset, it.glyphs, it.depth, &it.reason)).collect();
    assert_eq!(places, [(0, 23, 2, 0, &None), (2, 23, 2, 0, &None)]);
}

#[test]
fn fonts_of_families_join() {
    let font = example("tiny.pfa");
    let cut = |names: &[&str], tag: &str| {
        let text = String::from_utf8(subset(&font, names, Form::Pfa).unwrap()).unwrap();
        document("Tiny", text.replace("/FontName /", &format!("/FontName /{tag}")).as_bytes())
    };
    let (one, other) = (cut(&["X"], "ABCDEF+"), cut(&["Y"], "GHIJKL+"));
    let before = before_pooled("Tiny", &subset(&font, &["X", "Y"], Form::Pfa).unwrap());
    let first = document("Tiny", b"/ABCDEF+Tiny /pool:Tiny findfont definefont pop\n");
    let second = document("Tiny", b"/GHIJKL+Tiny /pool:Tiny findfont definefont pop\n");
    assert!(pool(&[&one, &other]).unwrap() == [&one[..], &other].concat());
    assert!(pool_with(&[&one, &other], TAGS).unwrap() == [&before[..], &first, &second].concat());
    let none: [&[u8]; 0] = [];
    assert_eq!(pool_with(&none, TAGS), Ok(Vec::new()));
}

/// A page of a document without a prolog, under a new number.
fn page(number: usize, text: &str) -> String {
    format!("%%Page: {number} {number}\n%%BeginPageSetup\npool:begin\n% %%Page: 1 1\n%\n%%EndPageSetup\n{text}pool:end\n")
}

#[test]
fn documents_become_one() {
    let one = pool_with(&["%!PS\n%%Page: 1 1\na\n", "%!PS\n%%Page: 1 1\nb\n"], DSC).unwrap();
    let pages = format!("%%EndProlog\n%%BeginSetup\n%%EndSetup\n{}{}%%Trailer\n%%EOF\n", page(1, "a\n"), page(2, "b\n"));
    assert!(one.starts_with(b"%!PS-Adobe-3.0\n%%Pages: 2\n%%EndComments\n%%BeginProlog\n"));
    assert!(one.ends_with(pages.as_bytes()));
}

#[test]
fn fonts_of_documents_that_stay() {
    let calls_4 = &b"\x8b\xf7\x8e\x0d\x8f\x0a\x0e"[..];
    let unlike = [&b"\xef\x16\x0b"[..], b"\xef\x04\x0b"].map(|subr| {
        let subrs = [&[STUB; 4][..], &[subr]].concat();
        document("Made", &made("Made", &subrs, &[(b".notdef", EMPTY), (b"A", calls_4)]))
    });
    assert!(pool(&unlike).unwrap() == unlike.concat());
    assert!(level(&unlike).unwrap() == unlike);
    for (at, place) in fonts(&unlike).unwrap().into_iter().enumerate() {
        assert_eq!((place.document, place.reason.as_deref()), (at, Some("subr 4 differs, used by A")));
    }
}

#[test]
fn listings_join() {
    let joined = join(&example("left.listing"), &example("right.listing"));
    assert!(joined.unwrap() == example("both.listing"));
    assert_eq!(join(b"", b"").unwrap(), b"");
}

#[test]
fn sizes_of_subsets() {
    let font = example("tiny.pfa");
    let rows: [(&[&str], usize, usize); 4] =
        [(&[], 2141, 2167), (&["X"], 2224, 2444), (&["X", "X"], 2224, 2444), (&["X", "Y"], 2301, 2718)];
    for (names, size, weight) in rows {
        let cut = subset(&font, names, Form::Pfa).unwrap();
        assert_eq!((cut.len(), check(&cut).unwrap().weight), (size, weight), "{names:?}");
    }
}

#[test]
fn many_threads() {
    let font = &example("tiny.pfa");
    thread::scope(|scope| {
        for name in ["X", "Y", "H", "Aacute", "X", "Y", "H", "Aacute"] {
            let want = subset(font, &[name], Form::Pfb).unwrap();
            scope.spawn(move || {
                for _ in 0..50 {
                    assert!(subset(font, &[name], Form::Pfb).unwrap() == want);
                    assert_eq!(check(b"").unwrap_err().text, "no eexec");
                }
            });
        }
    });
}
