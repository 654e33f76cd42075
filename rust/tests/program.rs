//! The crate against the program t1subset: the same bytes, and texts that say the same.

mod common;

use common::{document, every_font, example, left_out, some_names, top, Tiny};
use std::env;
use std::fmt::Write;
use std::fs;
use std::path::PathBuf;
use std::process::{Command, Output};
use t1subset::{
    Amount, Checked, Drawing, Encoding, Form, Limits, Listed, ListedInFull, Mark, Picture, Point, Refused, Width,
};

/// The program: that of the variable T1SUBSET, else the tree's.
fn program() -> Option<PathBuf> {
    let named = env::var_os("T1SUBSET").map(PathBuf::from);
    let built = ["bin/t1subset", "crates/t1subset/out/t1subset"].map(top);
    let found = named.into_iter().chain(built).find(|path| path.exists());
    if found.is_none() {
        left_out("no program t1subset: the crate is not compared with it");
    }
    found
}

fn numbers(out: &mut String, word: &str, amounts: &[Amount]) {
    out.push_str(word);
    for amount in amounts {
        write!(out, " {amount}").unwrap();
    }
    out.push('\n');
}

fn pairs(them: &[(Amount, Amount); 3]) -> [Amount; 6] {
    let [(a, b), (c, d), (e, f)] = *them;
    [a, b, c, d, e, f]
}

fn mark_line(out: &mut String, mark: &Mark) {
    match mark {
        Mark::Move(Point { x, y }) => numbers(out, "move", &[*x, *y]),
        Mark::Line(Point { x, y }) => numbers(out, "line", &[*x, *y]),
        Mark::Curve(a, b, c) => numbers(out, "curve", &[a.x, a.y, b.x, b.y, c.x, c.y]),
        Mark::Close => numbers(out, "close", &[]),
        Mark::Hstem(y, dy) => numbers(out, "hstem", &[*y, *dy]),
        Mark::Vstem(x, dx) => numbers(out, "vstem", &[*x, *dx]),
        Mark::Hstem3(stems) => numbers(out, "hstem3", &pairs(stems)),
        Mark::Vstem3(stems) => numbers(out, "vstem3", &pairs(stems)),
        Mark::Dot => numbers(out, "dot", &[]),
        Mark::Replace => numbers(out, "replace", &[]),
        Mark::Flex(height) => numbers(out, "flex", &[*height]),
        other => panic!("{other:?} is a new mark"),
    }
}

fn drawing_text(drawing: &Drawing) -> String {
    let mut out = String::new();
    numbers(&mut out, "width", &[drawing.width.x, drawing.width.y]);
    numbers(&mut out, "bearing", &[drawing.bearing.x, drawing.bearing.y]);
    for part in &drawing.parts {
        numbers(&mut out, "part", &[part.offset.x, part.offset.y]);
        part.marks.iter().for_each(|mark| mark_line(&mut out, mark));
    }
    out
}

fn list_text(listed: &Listed) -> String {
    let mut out = match &listed.encoding {
        Encoding::Word(word) => format!("encoding {word}\n"),
        Encoding::Codes(codes) => codes.iter().map(|(code, name)| format!("code {code} {name}\n")).collect(),
    };
    out.extend(listed.subrs.iter().map(|(index, length)| format!("subr {index} {length}\n")));
    out.extend(listed.glyphs.iter().map(|(name, length)| format!("glyph {name} {length}\n")));
    out
}

fn full_text(full: &ListedInFull) -> String {
    let mut out = list_text(&full.listed);
    let name = full.name.as_ref().map(|name| name.to_string());
    let told = [("name", &name), ("matrix", &full.matrix), ("box", &full.bbox), ("unique", &full.unique_id)];
    for (word, value) in told {
        out.extend(value.iter().map(|value| format!("{word} {value}\n")));
    }
    for (name, width) in &full.widths {
        match width {
            Width::Drawn(width) => numbers(&mut out, &format!("width {name}"), &[width.x, width.y]),
            Width::Undrawn(fault) => writeln!(out, "width {name} fault {fault}").unwrap(),
        }
    }
    out
}

fn check_text(checked: &Checked) -> String {
    format!("ok {} glyphs, {} subrs, weight {}\n", checked.glyphs, checked.subrs, checked.weight)
}

fn show_text(picture: &Picture) -> String {
    match picture {
        Picture::Drawn(drawing) => drawing_text(drawing),
        Picture::Undrawn(fault) => format!("fault {fault}\n"),
    }
}

/// A folder of files for the program, and what it makes of them.
struct Run {
    program: PathBuf,
    folder: PathBuf,
}

impl Run {
    fn new(name: &str) -> Option<Run> {
        let folder = PathBuf::from(env!("CARGO_TARGET_TMPDIR")).join(name);
        let program = fs::canonicalize(program()?).unwrap();
        fs::create_dir_all(&folder).unwrap();
        Some(Run { program, folder })
    }

    /// The call's result is what the program prints, or writes to OUT, or refuses; what it mends the program says, too.
    /// IN0, IN1 and so on name the inputs.
    #[track_caller]
    fn same(&self, words: &[&str], inputs: &[&[u8]], answer: Result<Vec<u8>, Refused>) {
        for (place, bytes) in inputs.iter().enumerate() {
            fs::write(self.folder.join(format!("IN{place}")), bytes).unwrap();
        }
        let Output { status, stdout, stderr } =
            Command::new(&self.program).args(words).current_dir(&self.folder).output().unwrap();
        let out = self.folder.join("OUT");
        let said = String::from_utf8(stderr).unwrap();
        match answer {
            Ok(bytes) => {
                let written = if words.contains(&"OUT") { fs::read(&out).unwrap() } else { stdout };
                assert_eq!((status.code(), written == bytes), (Some(0), true), "{words:?}");
                let mends = if words[0] == "mend" { t1subset::mends(inputs[0]).unwrap() } else { Vec::new() };
                assert_eq!(said, mends.iter().map(|mend| format!("{mend}\n")).collect::<String>(), "{words:?}");
            }
            Err(why) => {
                assert_eq!((status.code(), said), (Some(1), format!("refused: {why}\n")), "{words:?}");
            }
        }
        fs::remove_file(out).ok();
    }
}

#[test]
fn words_about_one_font() {
    let run = match Run::new("one") {
        Some(run) => run,
        None => return,
    };
    let spelled = ("spelled".to_string(), Tiny::spelled().file());
    for (_, font) in every_font().into_iter().chain([spelled]) {
        let names: Vec<String> = some_names(&font).iter().map(|name| name.to_string()).collect();
        let font = font.as_slice();
        run.same(&["check", "IN0"], &[font], t1subset::check(font).map(|it| check_text(&it).into()));
        run.same(&["list", "IN0"], &[font], t1subset::list(font).map(|it| list_text(&it).into()));
        run.same(&["list", "--full", "IN0"], &[font], t1subset::list_full(font).map(|it| full_text(&it).into()));
        run.same(&["pfa", "IN0", "OUT"], &[font], t1subset::convert(font, Form::Pfa));
        run.same(&["pfb", "IN0", "OUT"], &[font], t1subset::convert(font, Form::Pfb));
        run.same(&["mend", "IN0", "OUT"], &[font], t1subset::mend(font, Form::Pfa));
        run.same(&["mend", "--pfb", "IN0", "OUT"], &[font], t1subset::mend(font, Form::Pfb));
        let by_codes = t1subset::subset_codes::<&str>(font, &[], b"AB", Form::Pfa);
        run.same(&["subset", "IN0", "OUT", "--codes", "65-66"], &[font], by_codes);
        let by_text = t1subset::subset_codes(font, &["A"], b"Zed", Form::Pfa);
        run.same(&["subset", "IN0", "OUT", "--text", "Zed", "A"], &[font], by_text);
        for tokens in [0, 100, u64::MAX] {
            let cut = t1subset::subset_within(font, &["A"], b"Zed", Form::Pfa, &Limits { tokens });
            run.same(&["subset", "--tokens", &tokens.to_string(), "IN0", "OUT", "--text", "Zed", "A"], &[font], cut);
        }
        for name in names.iter().map(String::as_str).chain(["Zed"]) {
            run.same(&["show", "IN0", name], &[font], t1subset::show(font, name).map(|it| show_text(&it).into()));
            run.same(&["subset", "IN0", "OUT", name], &[font], t1subset::subset(font, &[name], Form::Pfa));
        }
    }
}

#[test]
fn words_about_several_fonts() {
    let run = match Run::new("several") {
        Some(run) => run,
        None => return,
    };
    let fonts: Vec<_> = every_font().into_iter().map(|(_, font)| font).collect();
    for pair in fonts.windows(2) {
        let inputs = [pair[0].as_slice(), pair[1].as_slice()];
        run.same(&["merge", "OUT", "IN0", "IN1"], &inputs, t1subset::merge(&inputs, Form::Pfa));
        run.same(&["rejoin", "OUT", "IN0", "IN1"], &inputs, t1subset::rejoin(&inputs, Form::Pfa));
    }
    let inputs = [fonts[0].as_slice(), fonts[1].as_slice()];
    for tokens in [0, 100, u64::MAX] {
        let (limits, shown) = (Limits { tokens }, tokens.to_string());
        let merged = t1subset::merge_within(&inputs, Form::Pfa, &limits);
        run.same(&["merge", "--tokens", &shown, "OUT", "IN0", "IN1"], &inputs, merged);
        let rejoined = t1subset::rejoin_within(&inputs, Form::Pfa, &limits);
        run.same(&["rejoin", "--tokens", &shown, "OUT", "IN0", "IN1"], &inputs, rejoined);
        let alike = [inputs[0], inputs[0]];
        let told = t1subset::diff_within(alike[0], alike[1], &limits);
        run.same(&["diff", "--tokens", &shown, "IN0", "IN1"], &alike, told);
    }
    for names in [["X", "Y"], ["Y", "Aacute"], ["H", "H"]] {
        let [one, other] = names.map(|name| {
            let font = t1subset::subset(&example("tiny.pfa"), &[name], Form::Pfa).unwrap();
            document("Tiny", &font)
        });
        let documents = [one.as_slice(), other.as_slice()];
        run.same(&["pool", "OUT", "IN0", "IN1"], &documents, t1subset::pool(&documents));
    }
    for (left, right) in [("left", "right"), ("left", "other"), ("right", "other")] {
        let (left, right) = (example(&format!("{left}.listing")), example(&format!("{right}.listing")));
        run.same(&["join", "IN0", "IN1"], &[&left, &right], t1subset::join(&left, &right));
    }
}

#[test]
fn prefixes_of_tiny() {
    let run = match Run::new("prefixes") {
        Some(run) => run,
        None => return,
    };
    for font in [example("tiny.pfa"), example("tiny.pfb")] {
        for cut in (0..font.len()).step_by(37).map(|size| &font[..size]) {
            run.same(&["check", "IN0"], &[cut], t1subset::check(cut).map(|it| check_text(&it).into()));
        }
    }
}
