//! The calls of the library. All that is unsafe in this crate stands here.

use crate::bytes::Out;
use crate::grow::{reserve, NoMemory, Written};
use crate::renderer::RenderError;
use crate::snippet::Shared;
use std::borrow::Cow;
use std::ffi::{c_int, c_void};
use std::mem::MaybeUninit;

extern "C" {
    fn yazgult_draw(input: *const u8, input_length: usize, output: *mut u8, output_length: usize) -> usize;
    fn yazgult_draw_json(input: *const u8, input_length: usize, output: *mut u8, output_length: usize) -> usize;
    fn yazgult_draw_with(
        input: *const u8,
        input_length: usize,
        sources: *mut Kept,
        output: *mut u8,
        output_length: usize,
    ) -> usize;
    fn yazgult_sources_new(sources: *mut Kept) -> c_int;
    fn yazgult_sources_add(text: *const u8, length: usize, sources: *mut Kept) -> c_int;
    fn yazgult_sources_share(from: *mut Kept, into: *mut Kept) -> c_int;
    fn yazgult_sources_answer(sources: *mut Kept, output: *mut u8, output_length: usize) -> usize;
    fn yazgult_sources_free(sources: *mut Kept);
}

/// A list of sources that the library keeps: they have numbers in their order, from 0.
#[repr(C)]
pub(crate) struct Kept {
    at: *mut c_void,
}

// SAFETY: it is proved of the library that a list may go to another thread between two calls.
unsafe impl Send for Kept {}

impl Kept {
    /// An empty list.
    pub(crate) fn new() -> Result<Self, NoMemory> {
        let mut made = std::mem::ManuallyDrop::new(Kept { at: std::ptr::null_mut() });
        // SAFETY: what the list had needn't be given back, since it had nothing.
        match unsafe { yazgult_sources_new(&mut *made) } {
            0 => Ok(std::mem::ManuallyDrop::into_inner(made)),
            _ => Err(NoMemory),
        }
    }

    /// Keeps a text, if it has fewer than 2^56 bytes.
    pub(crate) fn add(&mut self, text: &str) -> Written {
        // SAFETY: the text is a slice, and the list was made.
        told(unsafe { yazgult_sources_add(text.as_ptr(), text.len(), self) })
    }

    /// Keeps the sources of another list too.
    pub(crate) fn share(&mut self, from: &mut Kept) -> Written {
        // SAFETY: both lists were made, and are two.
        told(unsafe { yazgult_sources_share(from, self) })
    }
}

impl Drop for Kept {
    fn drop(&mut self) {
        // SAFETY: the list was made, and is not used again.
        unsafe { yazgult_sources_free(self) }
    }
}

fn told(status: c_int) -> Written {
    if status == 0 {
        Ok(())
    } else {
        Err(NoMemory)
    }
}

/// What is made of the bytes of the answer to a report.
pub(crate) fn draw<T>(report: &Out, read: impl Read<T>) -> Result<T, RenderError> {
    match report.kept.as_slice() {
        [] if report.bytes.len() <= SHORT => {
            let (at, length) = (report.bytes.as_ptr(), report.bytes.len());
            // SAFETY: both pointers are of a slice's length, and the output overlaps nothing else.
            let draw = |output, room| unsafe { yazgult_draw(at, length, output, room) };
            answer_of(draw, draw, read)
        }
        [one] => match one.try_lock() {
            Some(mut list) => draw_with(&report.bytes, &mut list, read),
            None => draw_with(&report.bytes, &mut list_of(&report.kept)?, read),
        },
        kept => draw_with(&report.bytes, &mut list_of(kept)?, read),
    }
}

/// What is made of the bytes of the answer to a report, which names kept sources by their numbers in this list. The list keeps the answer
/// where there is no room for it.
fn draw_with<T>(report: &[u8], kept: &mut Kept, read: impl Read<T>) -> Result<T, RenderError> {
    let (at, length, kept) = (report.as_ptr(), report.len(), kept as *mut Kept);
    answer_of(
        // SAFETY: the pointers are of a slice's length, the output overlaps nothing else, and the list was made.
        |output, room| unsafe { yazgult_draw_with(at, length, kept, output, room) },
        // SAFETY: the same.
        |output, room| unsafe { yazgult_sources_answer(kept, output, room) },
        read,
    )
}

/// A list of these kept sources.
fn list_of(kept: &[Shared]) -> Result<Kept, NoMemory> {
    let mut all = Kept::new()?;
    kept.iter().try_for_each(|one| one.share_into(&mut all))?;
    Ok(all)
}

/// How an answer is read, which stands in the room at hand or in memory of its own.
pub(crate) trait Read<T>: FnOnce(Cow<'_, [u8]>) -> Result<T, RenderError> {}

impl<T, F: FnOnce(Cow<'_, [u8]>) -> Result<T, RenderError>> Read<T> for F {}

/// The room at hand, on the stack. Labels and bars make a text longer than what it is made of.
const AT_HAND: usize = 16384;

/// How long a report is at most whose answer fits in the room at hand, but for odd ones: such a one is drawn twice.
const SHORT: usize = 2048;

/// What is made of an answer. `first` and `again` write as many bytes of it as there is room for, and return how many it has; `again` is
/// asked for it where the room at hand isn't enough.
fn answer_of<T>(
    first: impl FnOnce(*mut u8, usize) -> usize,
    again: impl FnOnce(*mut u8, usize) -> usize,
    read: impl Read<T>,
) -> Result<T, RenderError> {
    let mut room = [MaybeUninit::<u8>::uninit(); AT_HAND];
    let length = first(room.as_mut_ptr().cast(), AT_HAND);
    if length > AT_HAND {
        return read(Cow::Owned(whole(length, again)?));
    }
    // SAFETY: the library has written each of these bytes.
    read(Cow::Borrowed(unsafe { std::slice::from_raw_parts(room.as_ptr().cast(), length) }))
}

/// An answer of so many bytes, or, where there was no memory for it now, the one that says so.
fn whole(length: usize, answer: impl FnOnce(*mut u8, usize) -> usize) -> Result<Vec<u8>, NoMemory> {
    let mut output = Vec::new();
    reserve(length, &mut output)?;
    let length = answer(output.as_mut_ptr(), length).min(length);
    // SAFETY: there is room for so many bytes, and the library has written each.
    unsafe { output.set_len(length) };
    Ok(output)
}

/// What lines of JSON most often have room in, beside as much as they take: labels and bars make a text longer than what it is made of.
const ROOM: usize = 16384;

/// The bytes of the answer to a report as a line of JSON, which are JSON too. Where there is less room than the answer takes the report is
/// drawn once more.
pub(crate) fn draw_json(line: &[u8]) -> Result<Vec<u8>, NoMemory> {
    let mut output = Vec::new();
    reserve(line.len().saturating_add(ROOM), &mut output)?;
    loop {
        let room = output.capacity();
        // SAFETY: both pointers are of a slice's length, and the output overlaps nothing else.
        let length = unsafe { yazgult_draw_json(line.as_ptr(), line.len(), output.as_mut_ptr(), room) };
        if length <= room {
            // SAFETY: there is room for so many bytes, and the library has written each.
            unsafe { output.set_len(length) };
            return Ok(output);
        }
        reserve(length, &mut output)?;
    }
}
