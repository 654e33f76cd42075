//! The calls of t1subset.h, and the one place where they are made.

#![allow(unsafe_code)]

use crate::refusal::{Number, Refused};
use crate::{Form, Limits};
use std::marker::PhantomData;
use std::ptr;
use std::slice;

/// `t1subset_bytes`.
#[repr(C)]
struct Bytes {
    data: *const u8,
    size: usize,
}

/// `t1subset_bytes` of a slice that stays borrowed.
#[repr(transparent)]
struct Given<'a>(Bytes, PhantomData<&'a [u8]>);

impl<'a> Given<'a> {
    fn new(bytes: &'a [u8]) -> Given<'a> {
        Given(Bytes { data: bytes.as_ptr(), size: bytes.len() }, PhantomData)
    }
}

/// `t1subset_answer`; what it holds is freed with it.
#[repr(C)]
struct Answer {
    detail: u64,
    input: i64,
    bytes: Bytes,
}

extern "C" {
    fn t1subset_check(font: *const u8, size: usize, answer: *mut Answer) -> u32;
    fn t1subset_list(font: *const u8, size: usize, answer: *mut Answer) -> u32;
    fn t1subset_list_full(font: *const u8, size: usize, answer: *mut Answer) -> u32;
    fn t1subset_show(font: *const u8, size: usize, name: *const u8, name_size: usize, answer: *mut Answer) -> u32;
    fn t1subset_convert(font: *const u8, size: usize, form: u32, answer: *mut Answer) -> u32;
    fn t1subset_mend(font: *const u8, size: usize, form: u32, answer: *mut Answer) -> u32;
    fn t1subset_mends(font: *const u8, size: usize, answer: *mut Answer) -> u32;
    fn t1subset_subset(
        font: *const u8,
        size: usize,
        names: *const Given<'_>,
        count: usize,
        form: u32,
        answer: *mut Answer,
    ) -> u32;
    fn t1subset_subset_codes(
        font: *const u8,
        size: usize,
        names: *const Given<'_>,
        count: usize,
        codes: *const u8,
        codes_size: usize,
        form: u32,
        answer: *mut Answer,
    ) -> u32;
    fn t1subset_merge(fonts: *const Given<'_>, count: usize, form: u32, answer: *mut Answer) -> u32;
    fn t1subset_rejoin(fonts: *const Given<'_>, count: usize, form: u32, answer: *mut Answer) -> u32;
    fn t1subset_subset_within(
        font: *const u8,
        size: usize,
        names: *const Given<'_>,
        count: usize,
        codes: *const u8,
        codes_size: usize,
        form: u32,
        limits: *const Limits,
        answer: *mut Answer,
    ) -> u32;
    fn t1subset_merge_within(
        fonts: *const Given<'_>,
        count: usize,
        form: u32,
        limits: *const Limits,
        answer: *mut Answer,
    ) -> u32;
    fn t1subset_rejoin_within(
        fonts: *const Given<'_>,
        count: usize,
        form: u32,
        limits: *const Limits,
        answer: *mut Answer,
    ) -> u32;
    fn t1subset_diff(
        first: *const u8,
        first_size: usize,
        second: *const u8,
        second_size: usize,
        answer: *mut Answer,
    ) -> u32;
    fn t1subset_diff_within(
        first: *const u8,
        first_size: usize,
        second: *const u8,
        second_size: usize,
        limits: *const Limits,
        answer: *mut Answer,
    ) -> u32;
    fn t1subset_join(
        first: *const u8,
        first_size: usize,
        second: *const u8,
        second_size: usize,
        answer: *mut Answer,
    ) -> u32;
    fn t1subset_pool(documents: *const Given<'_>, count: usize, pooling: u32, answer: *mut Answer) -> u32;
    fn t1subset_level(documents: *const Given<'_>, count: usize, answers: *mut Answer) -> u32;
    fn t1subset_fonts(documents: *const Given<'_>, count: usize, answer: *mut Answer) -> u32;
    fn t1subset_extract(
        name: *const u8,
        name_size: usize,
        documents: *const Given<'_>,
        count: usize,
        answer: *mut Answer,
    ) -> u32;
    fn t1subset_free(answer: *mut Answer);
    fn t1subset_version() -> u32;
}

impl Answer {
    /// An answer that holds nothing.
    fn new() -> Answer {
        Answer { detail: 0, input: -1, bytes: Bytes { data: ptr::null(), size: 0 } }
    }

    fn bytes(&self) -> &[u8] {
        if self.bytes.size == 0 {
            return &[];
        }
        // SAFETY: a call gives as many bytes as it says, which are this answer's until it is freed. An answer of no
        // bytes may point anywhere, and is not looked at.
        unsafe { slice::from_raw_parts(self.bytes.data, self.bytes.size) }
    }

    /// The refusal of a call that returned this number.
    fn refused(&self, number: u32) -> Refused {
        Refused {
            number: Number::from(number),
            text: String::from_utf8_lossy(self.bytes()).into_owned(),
            detail: self.detail,
            input: usize::try_from(self.input).ok(),
        }
    }

    /// The result or the refusal that a call with this answer returned.
    fn result(&self, number: u32) -> Result<Vec<u8>, Refused> {
        match number {
            0 => Ok(self.bytes().to_vec()),
            number => Err(self.refused(number)),
        }
    }
}

impl Drop for Answer {
    fn drop(&mut self) {
        // SAFETY: the answer is new, or as a call left it on this thread, and it is freed once.
        unsafe { t1subset_free(self) }
    }
}

/// Makes a call with an answer of its own.
fn call(function: impl FnOnce(*mut Answer) -> u32) -> Result<Vec<u8>, Refused> {
    let mut answer = Answer::new();
    let number = function(&mut answer);
    answer.result(number)
}

fn given<'a>(items: &[&'a [u8]]) -> Vec<Given<'a>> {
    items.iter().map(|item| Given::new(item)).collect()
}

fn number_of(form: Form) -> u32 {
    match form {
        Form::Pfa => 0,
        Form::Pfb => 1,
    }
}

pub(crate) fn check(font: &[u8]) -> Result<Vec<u8>, Refused> {
    // SAFETY: the slice is borrowed for the call, and the answer is apart from it.
    call(|answer| unsafe { t1subset_check(font.as_ptr(), font.len(), answer) })
}

pub(crate) fn list(font: &[u8]) -> Result<Vec<u8>, Refused> {
    // SAFETY: as in `check`.
    call(|answer| unsafe { t1subset_list(font.as_ptr(), font.len(), answer) })
}

pub(crate) fn list_full(font: &[u8]) -> Result<Vec<u8>, Refused> {
    // SAFETY: as in `check`.
    call(|answer| unsafe { t1subset_list_full(font.as_ptr(), font.len(), answer) })
}

pub(crate) fn show(font: &[u8], name: &[u8]) -> Result<Vec<u8>, Refused> {
    // SAFETY: as in `check`, of two slices.
    call(|answer| unsafe { t1subset_show(font.as_ptr(), font.len(), name.as_ptr(), name.len(), answer) })
}

pub(crate) fn convert(font: &[u8], form: Form) -> Result<Vec<u8>, Refused> {
    // SAFETY: as in `check`.
    call(|answer| unsafe { t1subset_convert(font.as_ptr(), font.len(), number_of(form), answer) })
}

pub(crate) fn mend(font: &[u8], form: Form) -> Result<Vec<u8>, Refused> {
    // SAFETY: as in `check`.
    call(|answer| unsafe { t1subset_mend(font.as_ptr(), font.len(), number_of(form), answer) })
}

pub(crate) fn mends(font: &[u8]) -> Result<Vec<u8>, Refused> {
    // SAFETY: as in `check`.
    call(|answer| unsafe { t1subset_mends(font.as_ptr(), font.len(), answer) })
}

pub(crate) fn subset(font: &[u8], names: &[&[u8]], form: Form) -> Result<Vec<u8>, Refused> {
    let names = given(names);
    let form = number_of(form);
    // SAFETY: the slice, the names and their bytes are borrowed for the call, and the answer is apart from them.
    call(|answer| unsafe { t1subset_subset(font.as_ptr(), font.len(), names.as_ptr(), names.len(), form, answer) })
}

pub(crate) fn subset_codes(font: &[u8], names: &[&[u8]], codes: &[u8], form: Form) -> Result<Vec<u8>, Refused> {
    let names = given(names);
    let (data, size, form) = (codes.as_ptr(), codes.len(), number_of(form));
    // SAFETY: as in `subset`, and the codes are borrowed, too.
    call(|answer| unsafe {
        t1subset_subset_codes(font.as_ptr(), font.len(), names.as_ptr(), names.len(), data, size, form, answer)
    })
}

pub(crate) fn merge(fonts: &[&[u8]], form: Form) -> Result<Vec<u8>, Refused> {
    let fonts = given(fonts);
    // SAFETY: the fonts and their bytes are borrowed for the call, and the answer is apart from them.
    call(|answer| unsafe { t1subset_merge(fonts.as_ptr(), fonts.len(), number_of(form), answer) })
}

pub(crate) fn rejoin(fonts: &[&[u8]], form: Form) -> Result<Vec<u8>, Refused> {
    let fonts = given(fonts);
    // SAFETY: as in `merge`.
    call(|answer| unsafe { t1subset_rejoin(fonts.as_ptr(), fonts.len(), number_of(form), answer) })
}

pub(crate) fn subset_within(
    font: &[u8],
    names: &[&[u8]],
    codes: &[u8],
    form: Form,
    limits: &Limits,
) -> Result<Vec<u8>, Refused> {
    let names = given(names);
    let (data, size, form) = (codes.as_ptr(), codes.len(), number_of(form));
    // SAFETY: as in `subset_codes`, and the limits are borrowed, too.
    call(|answer| unsafe {
        t1subset_subset_within(font.as_ptr(), font.len(), names.as_ptr(), names.len(), data, size, form, limits, answer)
    })
}

pub(crate) fn merge_within(fonts: &[&[u8]], form: Form, limits: &Limits) -> Result<Vec<u8>, Refused> {
    let fonts = given(fonts);
    // SAFETY: as in `merge`, and the limits are borrowed, too.
    call(|answer| unsafe { t1subset_merge_within(fonts.as_ptr(), fonts.len(), number_of(form), limits, answer) })
}

pub(crate) fn rejoin_within(fonts: &[&[u8]], form: Form, limits: &Limits) -> Result<Vec<u8>, Refused> {
    let fonts = given(fonts);
    // SAFETY: as in `merge_within`.
    call(|answer| unsafe { t1subset_rejoin_within(fonts.as_ptr(), fonts.len(), number_of(form), limits, answer) })
}

pub(crate) fn diff(first: &[u8], second: &[u8]) -> Result<Vec<u8>, Refused> {
    // SAFETY: as in `check`, of two slices.
    call(|answer| unsafe { t1subset_diff(first.as_ptr(), first.len(), second.as_ptr(), second.len(), answer) })
}

pub(crate) fn diff_within(first: &[u8], second: &[u8], limits: &Limits) -> Result<Vec<u8>, Refused> {
    // SAFETY: as in `diff`, and the limits are borrowed, too.
    call(|answer| unsafe {
        t1subset_diff_within(first.as_ptr(), first.len(), second.as_ptr(), second.len(), limits, answer)
    })
}

pub(crate) fn join(first: &[u8], second: &[u8]) -> Result<Vec<u8>, Refused> {
    // SAFETY: as in `check`, of two slices.
    call(|answer| unsafe { t1subset_join(first.as_ptr(), first.len(), second.as_ptr(), second.len(), answer) })
}

pub(crate) fn pool(documents: &[&[u8]], pooling: u32) -> Result<Vec<u8>, Refused> {
    let documents = given(documents);
    // SAFETY: as in `merge`.
    call(|answer| unsafe { t1subset_pool(documents.as_ptr(), documents.len(), pooling, answer) })
}

pub(crate) fn level(documents: &[&[u8]]) -> Result<Vec<Vec<u8>>, Refused> {
    let mut answers: Vec<Answer> = documents.iter().map(|_| Answer::new()).collect();
    let documents = given(documents);
    // SAFETY: as in `merge`; there are as many answers as documents.
    let number = unsafe { t1subset_level(documents.as_ptr(), documents.len(), answers.as_mut_ptr()) };
    if number != 0 {
        return Err(answers.first().unwrap_or(&Answer::new()).refused(number));
    }
    Ok(answers.iter().map(|answer| answer.bytes().to_vec()).collect())
}

pub(crate) fn fonts(documents: &[&[u8]]) -> Result<Vec<u8>, Refused> {
    let documents = given(documents);
    // SAFETY: as in `merge`.
    call(|answer| unsafe { t1subset_fonts(documents.as_ptr(), documents.len(), answer) })
}

pub(crate) fn extract(name: &[u8], documents: &[&[u8]]) -> Result<Vec<u8>, Refused> {
    let documents = given(documents);
    // SAFETY: as in `merge`, and the name is borrowed, too.
    call(|answer| unsafe { t1subset_extract(name.as_ptr(), name.len(), documents.as_ptr(), documents.len(), answer) })
}

pub(crate) fn version() -> u32 {
    // SAFETY: the call takes nothing.
    unsafe { t1subset_version() }
}
