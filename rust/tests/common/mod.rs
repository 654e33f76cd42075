//! The fonts of the tests: Tiny, fonts that differ from it, and those that are installed.

#![allow(dead_code)]

use std::fs;
use std::io::{self, Write};
use std::path::{Path, PathBuf};

pub const EEXEC: u16 = 55665;
pub const CHARSTRING: u16 = 4330;
/// `0 250 hsbw endchar`.
pub const EMPTY: &[u8] = b"\x8b\xf7\x8e\x0d\x0e";
/// The `return` that stands for a Subr that is cut.
pub const STUB: &[u8] = b"\x0b";

/// Says what this machine can't try. The harness would keep what `eprintln` writes.
pub fn left_out(what: &str) {
    let mut out = io::stderr();
    writeln!(out, "left out: {what}").expect("standard error is open");
}

/// A path in the repository.
pub fn top(path: &str) -> PathBuf {
    Path::new(env!("CARGO_MANIFEST_DIR")).join("..").join(path)
}

/// A file of the repository's examples.
pub fn example(name: &str) -> Vec<u8> {
    let path = top("examples").join(name);
    fs::read(&path).unwrap_or_else(|why| panic!("{}: {why}", path.display()))
}

/// The text behind four lead bytes.
pub fn deciphered(cipher: &[u8], mut key: u16) -> Vec<u8> {
    let mut plain = Vec::new();
    for &byte in cipher {
        plain.push(byte ^ (key >> 8) as u8);
        key = key.wrapping_add(byte.into()).wrapping_mul(52845).wrapping_add(22719);
    }
    plain.split_off(4)
}

/// A text behind four lead bytes of zero, encrypted.
pub fn ciphered(text: &[u8], mut key: u16) -> Vec<u8> {
    let mut cipher = Vec::new();
    for &byte in [0; 4].iter().chain(text) {
        let byte = byte ^ (key >> 8) as u8;
        key = key.wrapping_add(byte.into()).wrapping_mul(52845).wrapping_add(22719);
        cipher.push(byte);
    }
    cipher
}

/// Where this stands first.
fn find(text: &[u8], wanted: &[u8]) -> Option<usize> {
    text.windows(wanted.len()).position(|window| window == wanted)
}

/// The text with other bytes wherever these stand, and how often they did.
fn replaced(text: &[u8], old: &[u8], new: &[u8]) -> (Vec<u8>, usize) {
    let (mut made, mut rest, mut count) = (Vec::new(), text, 0);
    while let Some(at) = find(rest, old) {
        made.extend_from_slice(&rest[..at]);
        made.extend_from_slice(new);
        rest = &rest[at + old.len()..];
        count += 1;
    }
    made.extend_from_slice(rest);
    (made, count)
}

/// Tiny's texts, that can be changed.
pub struct Tiny {
    pub clear: Vec<u8>,
    pub private: Vec<u8>,
}

impl Tiny {
    /// What the segments of tiny.pfb hold, of which the headers stand at 0, 319 and 1333.
    pub fn new() -> Tiny {
        let pfb = example("tiny.pfb");
        Tiny { clear: pfb[6..319].to_vec(), private: deciphered(&pfb[325..1333], EEXEC) }
    }

    /// Other bytes wherever these stand, in the clear or in the private text, which is so often.
    pub fn with_all(&self, old: &[u8], new: &[u8], wanted: usize) -> Tiny {
        let (clear, in_clear) = replaced(&self.clear, old, new);
        let (private, in_private) = replaced(&self.private, old, new);
        assert_eq!(in_clear + in_private, wanted, "{}", String::from_utf8_lossy(old));
        Tiny { clear, private }
    }

    /// Other bytes where these stand once.
    pub fn with(&self, old: &[u8], new: &[u8]) -> Tiny {
        self.with_all(old, new, 1)
    }

    /// Where the entry of a key such as `/A` or `dup 5` stands, of which the lengths have two digits at most.
    fn entry(&self, key: &[u8]) -> (usize, usize) {
        let front = [key, b" "].concat();
        let from = find(&self.private, &front).expect("Tiny has the key");
        let digits = from + front.len();
        let read = digits + find(&self.private[digits..], b" RD ").expect("an entry");
        let length: usize = String::from_utf8_lossy(&self.private[digits..read]).parse().expect("a length");
        (from, read + b" RD ".len() + length)
    }

    /// Tiny with a comment in its Encoding, at offset 195, and another one among its Subrs, at 269.
    pub fn spelled() -> Tiny {
        Tiny::new().with(b"dup 65 ", b"% a comment\ndup 65 ").with(b"dup 0 ", b"% a comment\ndup 0 ")
    }

    /// Another charstring behind a key.
    pub fn with_charstring(&self, key: &[u8], plain: &[u8]) -> Tiny {
        let (from, to) = self.entry(key);
        let entry = [key, b" ", &charstring(plain)].concat();
        Tiny { clear: self.clear.clone(), private: [&self.private[..from], &entry, &self.private[to..]].concat() }
    }

    /// The font without a glyph.
    pub fn without(&self, key: &[u8]) -> Tiny {
        let (from, to) = self.entry(key);
        let private = [&self.private[..from], &self.private[to + b" ND\n".len()..]].concat();
        Tiny { clear: self.clear.clone(), private }
    }

    /// The font with a raw binary cipher.
    pub fn file(&self) -> Vec<u8> {
        [self.clear.clone(), ciphered(&self.private, EEXEC), trailer()].concat()
    }
}

fn trailer() -> Vec<u8> {
    let zeros = ["0".repeat(64), "\n".into()].concat();
    [zeros.repeat(8), "cleartomark\n".into()].concat().into_bytes()
}

/// A charstring as an entry has it.
fn charstring(plain: &[u8]) -> Vec<u8> {
    let cipher = ciphered(plain, CHARSTRING);
    [format!("{} RD ", cipher.len()).into_bytes(), cipher].concat()
}

/// The canonical PFA of a font of these Subrs, and of glyphs in the order of their names.
pub fn made(name: &str, subrs: &[&[u8]], glyphs: &[(&[u8], &[u8])]) -> Vec<u8> {
    let mut private = format!("/Private 3 dict dup begin\n/Subrs {} array\n", subrs.len()).into_bytes();
    for (index, plain) in subrs.iter().enumerate() {
        private.extend([format!("dup {index} ").into_bytes(), charstring(plain), b" NP\n".to_vec()].concat());
    }
    private.extend(format!("ND\n2 index /CharStrings {} dict dup begin\n", glyphs.len()).bytes());
    for (name, plain) in glyphs {
        private.extend([b"/", *name, b" ", &charstring(plain), b" ND\n"].concat());
    }
    private.extend(b"end\nend\nmark currentfile closefile\n");
    let head = format!("%!\n/FontName /{name} def\n/Encoding StandardEncoding def\ncurrentfile eexec\n");
    let mut file = head.into_bytes();
    for bytes in ciphered(&private, EEXEC).chunks(32) {
        let digits: String = bytes.iter().map(|byte| format!("{byte:02x}")).collect();
        file.extend([digits, "\n".into()].concat().bytes());
    }
    file.extend(trailer());
    file
}

/// A document with a font of a name of four bytes, which begins at 23.
pub fn document(name: &str, font: &[u8]) -> Vec<u8> {
    [b"%!PS\n%%BeginFont: ", name.as_bytes(), b"\n", font, b"%%EndFont\n"].concat()
}

/// What stands before pooled documents whose fonts of a name are this font.
pub fn before_pooled(name: &str, font: &[u8]) -> Vec<u8> {
    let defined = format!("/pool:{name} /{name} findfont definefont pop\n");
    let loses = format!("systemdict/undefinefont known{{/{name} undefinefont}}if\n");
    let begin = format!("%!PS-Adobe-3.0\n%%BeginResource: font {name}\n");
    [begin.as_bytes(), font, b"%%EndResource\n", defined.as_bytes(), loses.as_bytes()].concat()
}

/// Tiny in both forms, and those of some installed fonts that the library reads.
pub fn each_font() -> Vec<(String, Vec<u8>)> {
    let mut fonts = every_font();
    fonts.retain(|(path, font)| match t1subset::check(font) {
        Err(why) if path.starts_with('/') => {
            left_out(&format!("{path}, which is refused: {why}"));
            false
        }
        _ => true,
    });
    fonts
}

/// Tiny in both forms, and some of the fonts that are installed.
pub fn every_font() -> Vec<(String, Vec<u8>)> {
    let mut paths = Vec::new();
    for root in ["/usr/share/fonts", "/usr/share/texlive/texmf-dist/fonts/type1"] {
        walk(Path::new(root), &mut paths);
    }
    paths.sort();
    if paths.is_empty() {
        left_out("no Type 1 font is installed: Tiny alone is tried");
    }
    let mut fonts: Vec<_> = ["tiny.pfa", "tiny.pfb"].map(|name| (name.to_string(), example(name))).into();
    let some = paths.iter().step_by((paths.len() / 8).max(1)).take(8);
    fonts.extend(some.map(|path| (path.display().to_string(), fs::read(path).expect("a font that can be read"))));
    fonts
}

fn walk(folder: &Path, paths: &mut Vec<PathBuf>) {
    for path in fs::read_dir(folder).into_iter().flatten().flatten().map(|entry| entry.path()) {
        if path.is_dir() {
            walk(&path, paths);
        } else if matches!(path.extension().and_then(|it| it.to_str()), Some("t1" | "pfa" | "pfb")) {
            paths.push(path);
        }
    }
}

/// Eight names of a font, from its whole table; none of a font that is refused.
pub fn some_names(font: &[u8]) -> Vec<t1subset::Name> {
    let glyphs = t1subset::list(font).map(|listed| listed.glyphs).unwrap_or_default();
    let step = (glyphs.len() / 8).max(1);
    glyphs.into_keys().step_by(step).take(8).collect()
}
