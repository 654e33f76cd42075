//! Adobe Type 1 fonts (PFA, PFB or with a raw binary cipher), cut, merged, checked, listed and drawn by libt1subset, also
//! those that stand in PostScript documents.
//!
//! ```
//! use t1subset::{merge, subset, Form};
//!
//! # fn main() -> Result<(), Box<dyn std::error::Error>> {
//! let font = std::fs::read("../examples/tiny.pfb")?;
//! let some = subset(&font, &["X"], Form::Pfa)?;
//! let other = subset(&font, &["Y", "Aacute"], Form::Pfb)?;
//! let both = merge(&[&other, &some], Form::Pfa)?;
//! assert_eq!(both, subset(&font, &["X", "Y", "Aacute"], Form::Pfa)?);
//! # Ok(())
//! # }
//! ```
//!
//! A call takes whole files as bytes, any bytes, and answers a whole file or what a font has. The name of a glyph is a
//! `str` or bytes, without its slash. A call that has no result answers [`Refused`], for want of memory, too, as
//! [`Number::Memory`]; only memory for what this crate itself copies is asked for as Rust does.
//!
//! Any number of threads may call at once. A font of 1 MB can be made so that a call that runs its glyphs takes minutes.
//! [`subset_within`], [`merge_within`], [`rejoin_within`] and [`diff_within`] bound what is run, without a clock;
//! [`list_full`], [`pool`], [`pool_with`], [`level`] and [`fonts`] have no such limit: a service that opens files of
//! strangers should limit the time of these from outside, for instance in a process of its own.
//!
//! # Panics
//!
//! [`check`], [`list`], [`list_full`], [`show`], [`mends`] and [`fonts`] read the library's texts, and panic at a text
//! that libt1subset.so.0 doesn't write.

#![warn(missing_docs)]
#![deny(unsafe_code)]
#![deny(unsafe_op_in_unsafe_fn)]

mod drawing;
mod ffi;
mod listed;
mod mended;
mod name;
mod placed;
mod refusal;

pub use drawing::{Amount, Drawing, DrawnPart, Mark, Picture, Point};
pub use listed::{Checked, Encoding, Listed, ListedInFull, Width};
pub use mended::Mend;
pub use name::Name;
pub use placed::Placed;
pub use refusal::{Number, Part, Refused};

/// The form of the file that is written.
#[derive(Clone, Copy, Debug, Default, PartialEq, Eq, Hash)]
pub enum Form {
    /// Text, with the cipher in hexadecimal: what a PostScript document contains.
    #[default]
    Pfa,
    /// Segments, with the cipher in binary.
    Pfb,
}

/// How [`pool_with`] pools documents; by default as [`pool`] does.
#[derive(Clone, Copy, Debug, Default, PartialEq, Eq, Hash)]
pub struct Pooling {
    /// Names that are equal without the tags that they begin with, six capitals and `+`, have one font, too, if it can be made.
    pub tags: bool,
    /// The documents become one document after Adobe's Document Structuring Conventions, whose pages stand by themselves.
    pub dsc: bool,
}

/// What [`subset_within`], [`merge_within`], [`rejoin_within`] and [`diff_within`] may do at most. By default nothing is
/// limited.
///
/// ```
/// use t1subset::Limits;
/// assert_eq!(Limits::default(), Limits { tokens: u64::MAX });
/// ```
#[repr(C)]
#[derive(Clone, Copy, Debug, PartialEq, Eq)]
pub struct Limits {
    /// How many tokens may be executed in all: numbers and commands of charstrings, each as often as it is executed, in
    /// Subrs too.
    pub tokens: u64,
}

impl Default for Limits {
    fn default() -> Limits {
        Limits { tokens: u64::MAX }
    }
}

/// What a font has, if it is one.
///
/// ```
/// # fn main() -> Result<(), Box<dyn std::error::Error>> {
/// let font = std::fs::read("../examples/tiny.pfa")?;
/// assert_eq!(t1subset::check(&font)?.glyphs, 11);
///
/// let refused = t1subset::check(b"no font").unwrap_err();
/// assert_eq!((refused.number, refused.input), (t1subset::Number::NoEexec, Some(0)));
/// assert_eq!(refused.to_string(), "no eexec");
/// # Ok(())
/// # }
/// ```
pub fn check(font: &[u8]) -> Result<Checked, Refused> {
    ffi::check(font).map(|text| read(&text, Checked::read))
}

/// The Encoding, and the lengths of the Subrs and of the glyphs.
///
/// ```
/// # fn main() -> Result<(), Box<dyn std::error::Error>> {
/// let font = std::fs::read("../examples/tiny.pfa")?;
/// let listed = t1subset::list(&font)?;
/// assert_eq!(listed.glyphs.get(&b"X"[..]), Some(&15));
/// let all = t1subset::subset(&font, &listed.glyphs.keys().collect::<Vec<_>>(), t1subset::Form::Pfa)?;
/// assert_eq!(t1subset::list(&all)?.glyphs, listed.glyphs);
/// # Ok(())
/// # }
/// ```
pub fn list(font: &[u8]) -> Result<Listed, Refused> {
    ffi::list(font).map(|text| read(&text, Listed::read))
}

/// What [`list`] says, and what the font's dictionary says, and the widths of the glyphs.
///
/// ```
/// use t1subset::Width;
///
/// # fn main() -> Result<(), Box<dyn std::error::Error>> {
/// let font = std::fs::read("../examples/tiny.pfa")?;
/// let full = t1subset::list_full(&font)?;
/// assert_eq!(full.listed, t1subset::list(&font)?);
/// assert_eq!(full.bbox.as_deref(), Some("0 0 500 700"));
/// if let Some(Width::Drawn(width)) = full.widths.get(&b"X"[..]) {
///     assert_eq!(width.x.to_f64(), 300.0);
/// }
/// # Ok(())
/// # }
/// ```
pub fn list_full(font: &[u8]) -> Result<ListedInFull, Refused> {
    ffi::list_full(font).map(|text| read(&text, ListedInFull::read))
}

/// What a glyph draws, or the fault for which it can't be drawn.
///
/// ```
/// use t1subset::{Mark, Picture};
///
/// # fn main() -> Result<(), Box<dyn std::error::Error>> {
/// let font = std::fs::read("../examples/tiny.pfa")?;
/// if let Picture::Drawn(drawing) = t1subset::show(&font, "X")? {
///     assert_eq!(drawing.width.x.to_f64(), 300.0);
///     for mark in &drawing.parts[0].marks {
///         match mark {
///             Mark::Move(to) => println!("{} {} moveto", to.x.to_f64(), to.y.to_f64()),
///             Mark::Line(to) => println!("{} {} lineto", to.x.to_f64(), to.y.to_f64()),
///             _ => (),
///         }
///     }
/// }
/// assert_eq!(t1subset::show(&font, "N")?, Picture::Undrawn("NestedSeac".into()));
/// # Ok(())
/// # }
/// ```
pub fn show<N: AsRef<[u8]> + ?Sized>(font: &[u8], name: &N) -> Result<Picture, Refused> {
    ffi::show(font, name.as_ref()).map(|text| read(&text, Picture::read))
}

/// The one canonical file of a font, in a form.
///
/// ```
/// # fn main() -> Result<(), Box<dyn std::error::Error>> {
/// let (pfa, pfb) = (std::fs::read("../examples/tiny.pfa")?, std::fs::read("../examples/tiny.pfb")?);
/// assert_eq!(t1subset::convert(&pfa, t1subset::Form::Pfb)?, pfb);
/// # Ok(())
/// # }
/// ```
pub fn convert(font: &[u8], form: Form) -> Result<Vec<u8>, Refused> {
    ffi::convert(font, form)
}

/// The canonical file, in a form, of a font that another program spells: with comments in the Encoding or among the Subrs,
/// with codes that are copied, or with `readonly` behind a word Encoding; and without the test of FontDirectory that it may
/// begin with.
///
/// ```
/// # fn main() -> Result<(), Box<dyn std::error::Error>> {
/// let font = std::fs::read("../examples/tiny.pfa")?;
/// assert_eq!(t1subset::mend(&font, t1subset::Form::Pfa)?, font);
/// # Ok(())
/// # }
/// ```
pub fn mend(font: &[u8], form: Form) -> Result<Vec<u8>, Refused> {
    ffi::mend(font, form)
}

/// What [`mend`] mends of a font, and where; of a font with nothing to mend it is empty.
///
/// ```
/// # fn main() -> Result<(), Box<dyn std::error::Error>> {
/// let font = std::fs::read_to_string("../examples/tiny.pfa")?;
/// assert!(t1subset::mends(font.as_bytes())?.is_empty());
///
/// let spelled = font.replace("dup 65 ", "% a comment\ndup 65 ");
/// for mend in t1subset::mends(spelled.as_bytes())? {
///     assert_eq!((mend.what.as_str(), mend.at), ("comment in Encoding", 195));
/// }
/// # Ok(())
/// # }
/// ```
pub fn mends(font: &[u8]) -> Result<Vec<Mend>, Refused> {
    ffi::mends(font).map(|text| read(&text, Mend::read))
}

/// The canonical file of the subset that keeps these glyphs, .notdef, the components of accented glyphs, and the Subrs
/// that all of these execute. A name may stand in the list more than once.
///
/// ```
/// # fn main() -> Result<(), Box<dyn std::error::Error>> {
/// let font = std::fs::read("../examples/tiny.pfa")?;
/// let some = t1subset::subset(&font, &["X", "Y"], t1subset::Form::Pfa)?;
/// assert_eq!(t1subset::check(&some)?.glyphs, 3);
/// # Ok(())
/// # }
/// ```
pub fn subset<N: AsRef<[u8]>>(font: &[u8], names: &[N], form: Form) -> Result<Vec<u8>, Refused> {
    ffi::subset(font, &slices(names), form)
}

/// The same, and the glyphs are kept, too, whose names these codes have in the font's Encoding; each byte is a code.
///
/// If the Encoding is the word StandardEncoding, the names are those of StandardEncoding; by any other word no code has a
/// name. The first code without a name is refused, before a name that the font lacks.
///
/// ```
/// # fn main() -> Result<(), Box<dyn std::error::Error>> {
/// use t1subset::{subset, subset_codes, Form};
/// let font = std::fs::read("../examples/tiny.pfa")?;
/// let both = subset(&font, &["X", "Y"], Form::Pfa)?;
/// assert_eq!(subset_codes(&font, &["X"], b"B", Form::Pfa)?, both);
/// assert_eq!(subset_codes::<&str>(&font, &[], b"AB", Form::Pfa)?, both);
/// # Ok(())
/// # }
/// ```
pub fn subset_codes<N: AsRef<[u8]>>(font: &[u8], names: &[N], codes: &[u8], form: Form) -> Result<Vec<u8>, Refused> {
    ffi::subset_codes(font, &slices(names), codes, form)
}

/// The canonical file of the font that fonts merge to. Subsets of one font that t1subset cut merge, in every order, to
/// the subset of all their names, byte for byte.
///
/// ```
/// # fn main() -> Result<(), Box<dyn std::error::Error>> {
/// use t1subset::{merge, subset, Form};
/// let font = std::fs::read("../examples/tiny.pfa")?;
/// let parts = [subset(&font, &["Y"], Form::Pfa)?, subset(&font, &["X"], Form::Pfa)?];
/// assert_eq!(merge(&parts, Form::Pfb)?, subset(&font, &["X", "Y"], Form::Pfb)?);
/// # Ok(())
/// # }
/// ```
pub fn merge<F: AsRef<[u8]>>(fonts: &[F], form: Form) -> Result<Vec<u8>, Refused> {
    ffi::merge(&slices(fonts), form)
}

/// The same for subsets that another program cut, such as dvips or pdfTeX: they are first mended, as by [`mend`], and
/// normalized (white space is squeezed, lines of UniqueID and XUID and the tag before the FontName are removed, and every table of Subrs
/// declares as many).
pub fn rejoin<F: AsRef<[u8]>>(fonts: &[F], form: Form) -> Result<Vec<u8>, Refused> {
    ffi::rejoin(&slices(fonts), form)
}

/// What [`subset_codes`] answers, within limits.
///
/// It is refused as [`Number::TooManyTokens`] only if the runs of all glyphs that are kept execute more tokens in all,
/// those where hints are replaced and those where they are kept. Missing codes and names are told before.
///
/// ```
/// # fn main() -> Result<(), Box<dyn std::error::Error>> {
/// use t1subset::{subset, subset_within, Form, Limits, Number};
/// let font = std::fs::read("../examples/tiny.pfa")?;
/// let limits = Limits { tokens: 1_000_000 };
/// let cut = subset_within(&font, &["X"], b"B", Form::Pfa, &limits)?;
/// assert_eq!(cut, subset(&font, &["X", "Y"], Form::Pfa)?);
///
/// let refused = subset_within(&font, &["X"], b"B", Form::Pfa, &Limits { tokens: 5 }).unwrap_err();
/// assert_eq!(refused.number, Number::TooManyTokens);
/// # Ok(())
/// # }
/// ```
pub fn subset_within<N: AsRef<[u8]>>(
    font: &[u8],
    names: &[N],
    codes: &[u8],
    form: Form,
    limits: &Limits,
) -> Result<Vec<u8>, Refused> {
    ffi::subset_within(font, &slices(names), codes, form, limits)
}

/// What [`merge`] answers, within limits.
///
/// It is refused as [`Number::TooManyTokens`] only if the runs of all glyphs of all fonts execute more tokens in all, as
/// for [`subset_within`]. If the shells of the first two fonts differ, that is told, and no glyph is run; any other conflict
/// is told only where the tokens are not too many.
///
/// ```
/// # fn main() -> Result<(), Box<dyn std::error::Error>> {
/// use t1subset::{merge, merge_within, Form, Limits, Number};
/// let font = std::fs::read("../examples/tiny.pfa")?;
/// let limits = Limits { tokens: 10_000_000 };
/// assert_eq!(merge_within(&[&font, &font], Form::Pfb, &limits)?, merge(&[&font], Form::Pfb)?);
///
/// let refused = merge_within(&[&font, &font], Form::Pfb, &Limits { tokens: 10 }).unwrap_err();
/// assert_eq!(refused.number, Number::TooManyTokens);
/// # Ok(())
/// # }
/// ```
pub fn merge_within<F: AsRef<[u8]>>(fonts: &[F], form: Form, limits: &Limits) -> Result<Vec<u8>, Refused> {
    ffi::merge_within(&slices(fonts), form, limits)
}

/// What [`rejoin`] answers, within limits.
///
/// It is refused as [`Number::TooManyTokens`] only if the runs of all glyphs of all fonts execute more tokens in all, as
/// for [`subset_within`].
pub fn rejoin_within<F: AsRef<[u8]>>(fonts: &[F], form: Form, limits: &Limits) -> Result<Vec<u8>, Refused> {
    ffi::rejoin_within(&slices(fonts), form, limits)
}

/// Lines that tell all conflicts of two fonts, each with the text by which [`merge`] refuses for it, the lowest first; empty exactly
/// if the fonts merge.
pub fn diff(first: &[u8], second: &[u8]) -> Result<Vec<u8>, Refused> {
    ffi::diff(first, second)
}

/// What [`diff`] answers, within limits.
///
/// It is refused as [`Number::TooManyTokens`] only if the runs of all glyphs of both fonts execute more tokens in all, as
/// for [`subset_within`]. These are run first, so that this refusal comes before all conflicts.
///
/// ```
/// # fn main() -> Result<(), Box<dyn std::error::Error>> {
/// use t1subset::{diff_within, Limits, Number};
/// let [pfa, pfb] = [std::fs::read("../examples/tiny.pfa")?, std::fs::read("../examples/tiny.pfb")?];
/// assert_eq!(diff_within(&pfa, &pfb, &Limits { tokens: 10_000_000 })?, b"");
///
/// let refused = diff_within(&pfa, &pfb, &Limits { tokens: 10 }).unwrap_err();
/// assert_eq!(refused.number, Number::TooManyTokens);
/// # Ok(())
/// # }
/// ```
pub fn diff_within(first: &[u8], second: &[u8], limits: &Limits) -> Result<Vec<u8>, Refused> {
    ffi::diff_within(first, second, limits)
}

/// The join of two listings, texts of lines `S INDEX HEX` and `G NAME HEX`.
///
/// ```
/// # fn main() -> Result<(), Box<dyn std::error::Error>> {
/// assert_eq!(t1subset::join(b"S 5 ef060b\n", b"G Y 0E\n")?, b"S 5 ef060b\nG Y 0e\n");
/// # Ok(())
/// # }
/// ```
pub fn join(first: &[u8], second: &[u8]) -> Result<Vec<u8>, Refused> {
    ffi::join(first, second)
}

/// PostScript documents, one behind the other, with each font once. Where a font may stand says the man page t1subset(1),
/// under `pool`. A font that has several places stands before the first document, and each place has a line by which its name
/// finds it. The fonts of a name that don't rejoin stay: [`fonts`] says why.
///
/// ```
/// # fn main() -> Result<(), Box<dyn std::error::Error>> {
/// let font = std::fs::read_to_string("../examples/tiny.pfa")?;
/// let document = |font: &str| format!("%!PS\n%%BeginFont: Tiny\n{font}%%EndFont\nshowpage\n");
/// let twice = t1subset::pool(&[document(&font), document(&font)])?;
/// let line = document("/Tiny /pool:Tiny findfont definefont pop\n");
/// assert!(twice.ends_with([&line[..], &line].concat().as_bytes()));
/// # Ok(())
/// # }
/// ```
pub fn pool<D: AsRef<[u8]>>(documents: &[D]) -> Result<Vec<u8>, Refused> {
    ffi::pool(&slices(documents), 0)
}

/// The same in one of several ways.
///
/// ```
/// use t1subset::{pool_with, Pooling};
///
/// let documents = ["%!PS\n%%Page: 1 1\nshowpage\n", "%!PS\n%%Page: 1 1\nshowpage\n"];
/// let one = pool_with(&documents, Pooling { dsc: true, ..Pooling::default() })?;
/// assert!(one.starts_with(b"%!PS-Adobe-3.0\n%%Pages: 2\n"));
/// # Ok::<(), t1subset::Refused>(())
/// ```
pub fn pool_with<D: AsRef<[u8]>>(documents: &[D], pooling: Pooling) -> Result<Vec<u8>, Refused> {
    ffi::pool(&slices(documents), u32::from(pooling.tags) | u32::from(pooling.dsc) << 1)
}

/// The documents, in each of which each place of a name has the joined font, so that any of them may be printed without
/// the others.
pub fn level<D: AsRef<[u8]>>(documents: &[D]) -> Result<Vec<Vec<u8>>, Refused> {
    ffi::level(&slices(documents))
}

/// The places of fonts in documents, in their order, and whether the fonts of each name rejoin.
///
/// ```
/// # fn main() -> Result<(), Box<dyn std::error::Error>> {
/// let font = std::fs::read_to_string("../examples/tiny.pfa")?;
/// for place in t1subset::fonts(&["%!PS\n", &format!("%!PS\n%%BeginFont: Tiny\n{font}%%EndFont\n")])? {
///     assert_eq!((place.document, place.offset, place.glyphs, place.reason), (1, 23, 11, None));
///     assert_eq!(place.name, "Tiny");
/// }
/// # Ok(())
/// # }
/// ```
pub fn fonts<D: AsRef<[u8]>>(documents: &[D]) -> Result<Vec<Placed>, Refused> {
    ffi::fonts(&slices(documents)).map(|text| read(&text, Placed::read))
}

/// The canonical PFA of the first font of this name in documents, mended as by [`mend`].
pub fn extract<N: AsRef<[u8]> + ?Sized, D: AsRef<[u8]>>(name: &N, documents: &[D]) -> Result<Vec<u8>, Refused> {
    ffi::extract(name.as_ref(), &slices(documents))
}

/// The version of the library that is linked, as `T1SUBSET_VERSION`: 0x00MMmmpp.
pub fn version() -> u32 {
    ffi::version()
}

// Each item is asked once: `as_ref` may answer another slice the next time.
fn slices<T: AsRef<[u8]>>(items: &[T]) -> Vec<&[u8]> {
    items.iter().map(AsRef::as_ref).collect()
}

fn read<T>(text: &[u8], parse: impl FnOnce(&str) -> Option<T>) -> T {
    let text = String::from_utf8_lossy(text);
    match parse(&text) {
        Some(said) => said,
        None => panic!("this is not libt1subset.so.0: it answered {text:?}"),
    }
}
