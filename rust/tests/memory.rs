//! Each growth of a call is refused in turn: the call answers `Number::Memory`, and nothing is held.

mod common;

use common::{before_pooled, document, example, made, Tiny};
use std::cell::Cell;
use std::ffi::c_void;
use std::fmt::Debug;
use std::ptr;
use t1subset::{
    check, convert, diff, extract, fonts, join, level, list, list_full, mend, mends, merge, pool, rejoin, show, subset,
};
use t1subset::{
    diff_within, merge_within, rejoin_within, subset_codes, subset_within, Form, Limits, Number, Picture, Refused,
};

/// `t1subset_heap`.
#[repr(C)]
struct Heap {
    resize: extern "C" fn(*mut c_void, *mut c_void, usize) -> *mut c_void,
    user: *mut c_void,
}

extern "C" {
    fn t1subset_use(heap: *const Heap);
    fn realloc(block: *mut c_void, size: usize) -> *mut c_void;
    fn free(block: *mut c_void);
}

/// How many growths are still granted, whether one was refused, and how many blocks are held.
#[derive(Default)]
struct Counts {
    left: Cell<usize>,
    refuses: Cell<bool>,
    held: Cell<usize>,
}

extern "C" fn resize(user: *mut c_void, block: *mut c_void, size: usize) -> *mut c_void {
    // SAFETY: the user of this heap is a `Counts` that outlives its use, on this thread.
    let counts = unsafe { &*user.cast::<Counts>() };
    if size == 0 {
        counts.held.set(counts.held.get() - 1);
        // SAFETY: the library frees a block that it was given here, once.
        unsafe { free(block) };
        return ptr::null_mut();
    }
    if counts.left.get() == 0 {
        counts.refuses.set(true);
        return ptr::null_mut();
    }
    counts.left.set(counts.left.get() - 1);
    counts.held.set(counts.held.get() + usize::from(block.is_null()));
    // SAFETY: the block is none, or one that this made.
    unsafe { realloc(block, size) }
}

/// What the call answers once no growth is refused.
#[track_caller]
fn sweep<T: Debug>(call: impl Fn() -> Result<T, Refused>) -> Result<T, Refused> {
    for growths in 0..100_000 {
        let counts = Counts { left: Cell::new(growths), ..Counts::default() };
        let heap = Heap { resize, user: ptr::addr_of!(counts) as *mut c_void };
        // SAFETY: the heap stays while it is in use: until the next line but one.
        unsafe { t1subset_use(&heap) };
        let done = call();
        // SAFETY: this is malloc again.
        unsafe { t1subset_use(ptr::null()) };
        assert_eq!(counts.held.get(), 0);
        match done {
            Err(why) if why.number == Number::Memory => {
                assert!(counts.refuses.get());
                assert_eq!((why.text.as_str(), why.detail, why.input), ("", 0, None));
                assert_eq!(why.to_string(), "out of memory");
            }
            done => {
                assert!(growths > 0 && !counts.refuses.get());
                return done;
            }
        }
    }
    panic!("a call of 100,000 growths");
}

#[test]
fn each_call() {
    let (pfa, pfb) = (example("tiny.pfa"), example("tiny.pfb"));
    assert_eq!(sweep(|| check(&pfa)).unwrap().weight, 4936);
    assert_eq!(sweep(|| list(&pfa)).unwrap().glyphs.len(), 11);
    assert_eq!(sweep(|| list_full(&pfa)).unwrap().widths.len(), 11);
    assert_eq!(sweep(|| show(&pfa, "L")).unwrap(), Picture::Undrawn("Nesting".into()));
    assert!(sweep(|| convert(&pfa, Form::Pfb)).unwrap() == pfb);
    assert!(sweep(|| mend(&pfa, Form::Pfb)).unwrap() == pfb);
    let spelled = Tiny::spelled().file();
    assert_eq!(sweep(|| mends(&spelled)).unwrap().len(), 2);
    assert_eq!(sweep(|| diff(&pfa, &pfb)).unwrap(), b"");
    assert_eq!(sweep(|| diff_within(&pfa, &pfb, &Limits::default())).unwrap(), b"");
    assert_eq!(sweep(|| join(b"S 5 0B\n", b"")).unwrap(), b"S 5 0b\n");
}

#[test]
fn calls_that_make_fonts() {
    let pfa = example("tiny.pfa");
    let (one, two) = (subset(&pfa, &["X"], Form::Pfa).unwrap(), subset(&pfa, &["Y"], Form::Pfa).unwrap());
    let both = subset(&pfa, &["X", "Y"], Form::Pfa).unwrap();
    assert!(sweep(|| subset(&pfa, &["X"], Form::Pfa)).unwrap() == one);
    assert!(sweep(|| subset_codes(&pfa, &["X"], b"B", Form::Pfa)).unwrap() == both);
    assert!(sweep(|| merge(&[&one, &two], Form::Pfa)).unwrap() == both);
    assert!(sweep(|| rejoin(&[&two, &one], Form::Pfa)).unwrap() == both);
    let limits = Limits::default();
    assert!(sweep(|| subset_within(&pfa, &["X"], b"B", Form::Pfa, &limits)).unwrap() == both);
    assert!(sweep(|| merge_within(&[&one, &two], Form::Pfa, &limits)).unwrap() == both);
    assert!(sweep(|| rejoin_within(&[&two, &one], Form::Pfa, &limits)).unwrap() == both);
}

#[test]
fn calls_over_documents() {
    let pfa = example("tiny.pfa");
    let cut = |names: &[&str]| document("Tiny", &subset(&pfa, names, Form::Pfa).unwrap());
    let (documents, both) = ([cut(&["X"]), cut(&["Y"])], cut(&["X", "Y"]));
    let before = before_pooled("Tiny", &subset(&pfa, &["X", "Y"], Form::Pfa).unwrap());
    let line = document("Tiny", b"/Tiny /pool:Tiny findfont definefont pop\n");
    let pooled = [&before[..], &line, &line].concat();
    assert!(sweep(|| pool(&documents)).unwrap() == pooled);
    assert!(sweep(|| level(&documents)).unwrap() == [both.clone(), both.clone()]);
    assert_eq!(sweep(|| fonts(&documents)).unwrap().len(), 2);
    assert!(sweep(|| extract("Tiny", &documents)).unwrap() == subset(&pfa, &["X"], Form::Pfa).unwrap());
    assert_eq!(sweep(|| extract("Tony", &documents)).unwrap_err().text, "no font Tony");
}

#[test]
fn a_refusal() {
    let fonts = [example("tiny.pfa"), Tiny::new().with(b"5839", b"5840").file()];
    assert_eq!(sweep(|| merge(&fonts, Form::Pfa)).unwrap_err().text, "shells differ in private");
    let none = made("None", &[], &[]);
    assert_eq!(sweep(|| check(&none)).unwrap_err().text, "no .notdef");
    let few = Limits { tokens: 3 };
    assert_eq!(sweep(|| merge_within(&fonts[..1], Form::Pfa, &few)).unwrap_err().number, Number::TooManyTokens);
    assert_eq!(sweep(|| diff_within(&fonts[0], &fonts[1], &few)).unwrap_err().number, Number::TooManyTokens);
}
