//! What the library answers, as bytes and as JSON: `docs/BINDINGS.md` and `docs/REPORTS.md` have the forms.

use crate::grow::{put, reserve, NoMemory};
use crate::renderer::RenderError;
use std::borrow::Cow;

/// The texts of an answer in bytes, one under each sheet, or why there is none.
pub(crate) fn texts(answer: &[u8]) -> Result<Vec<String>, RenderError> {
    let mut answer = Answer { bytes: answer };
    match answer.byte() {
        0 => answer.texts(),
        1 => Err(answer.refusal()),
        3 => Err(RenderError::Memory),
        _ => no_fit(),
    }
}

/// What an answer in bytes with one text begins with: its kind, and the number of texts. The length of the text follows, and the text.
const ONE_TEXT: [u8; 9] = [0, 1, 0, 0, 0, 0, 0, 0, 0];
const BEFORE_TEXT: usize = 17;

/// The text of an answer in bytes to a report under one sheet, or why there is none. A text that stands in memory of its own isn't copied:
/// it has room for the bytes before it too, and for no more.
pub(crate) fn only_text(answer: Cow<'_, [u8]>) -> Result<String, RenderError> {
    if !answer.starts_with(&ONE_TEXT) {
        return Ok(texts(&answer)?.remove(0));
    }
    match answer {
        Cow::Borrowed(answer) => Answer { bytes: &answer[ONE_TEXT.len()..] }.text(),
        Cow::Owned(mut answer) => {
            answer.drain(..BEFORE_TEXT);
            Ok(String::from_utf8(answer).expect("texts are UTF-8"))
        }
    }
}

/// What stands around the one text of an answer in JSON to a report without a name.
const AROUND_TEXT: (&str, &str) = ("{\"id\":\"\",\"ok\":[\"", "\"]}");

/// The one text of an answer in JSON; none where the report is refused, or there was no memory for the text.
pub(crate) fn only_json_text(answer: &[u8]) -> Result<Option<String>, RenderError> {
    let (before, after) = AROUND_TEXT;
    match answer.strip_prefix(before.as_bytes()).and_then(|rest| rest.strip_suffix(after.as_bytes())) {
        Some(text) => unescaped(text).map(Some),
        None => Ok(None),
    }
}

/// The text that the bytes between the quotes of a text in JSON say.
fn unescaped(mut rest: &[u8]) -> Result<String, RenderError> {
    let mut text = Vec::new();
    reserve(rest.len(), &mut text)?;
    while let Some(at) = rest.iter().position(|byte| *byte == b'\\') {
        put(&rest[..at], &mut text)?;
        rest = &rest[at + 1..];
        let (character, length) = escape(rest);
        put(character.encode_utf8(&mut [0; 4]).as_bytes(), &mut text)?;
        rest = &rest[length..];
    }
    put(rest, &mut text)?;
    if text.capacity() > 2 * text.len() {
        text = copied(&text)?;
    }
    Ok(String::from_utf8(text).expect("texts are UTF-8"))
}

/// These bytes in a list that has room for them and no more.
fn copied(bytes: &[u8]) -> Result<Vec<u8>, NoMemory> {
    let mut copy = Vec::new();
    copy.try_reserve_exact(bytes.len()).map_err(|_| NoMemory)?;
    copy.extend_from_slice(bytes);
    Ok(copy)
}

/// The character that an escape of JSON stands for, and how many bytes it has after its backslash. The library escapes no character
/// beyond those of one unit of UTF-16.
fn escape(bytes: &[u8]) -> (char, usize) {
    match bytes {
        [b'n', ..] => ('\n', 1),
        [b't', ..] => ('\t', 1),
        [b'r', ..] => ('\r', 1),
        [b'b', ..] => ('\u{8}', 1),
        [b'f', ..] => ('\u{c}', 1),
        [b'u', digits @ ..] if digits.len() >= 4 => (unit(&digits[..4]).unwrap_or_else(no_fit), 5),
        [quoted @ (b'"' | b'\\' | b'/'), ..] => (char::from(*quoted), 1),
        _ => no_fit(),
    }
}

/// The character of a unit of UTF-16 in four digits.
fn unit(digits: &[u8]) -> Option<char> {
    let digits = std::str::from_utf8(digits).ok()?;
    char::from_u32(u32::from_str_radix(digits, 16).ok()?)
}

/// Ends the program where an answer has none of the forms that this version of the library gives.
fn no_fit<T>() -> T {
    panic!("libyazgult and the crate yazgult don't fit together")
}

/// The rest of an answer, from left to right.
struct Answer<'a> {
    bytes: &'a [u8],
}

impl<'a> Answer<'a> {
    fn take(&mut self, count: usize) -> &'a [u8] {
        let (front, rest) = self.bytes.split_at(count);
        self.bytes = rest;
        front
    }

    fn byte(&mut self) -> u8 {
        self.take(1)[0]
    }

    fn number(&mut self) -> usize {
        u64::from_le_bytes(self.take(8).try_into().expect("a number has eight bytes")) as usize
    }

    fn texts(&mut self) -> Result<Vec<String>, RenderError> {
        let mut texts = Vec::new();
        let count = self.number();
        reserve(count, &mut texts)?;
        for _ in 0..count {
            texts.push(self.text()?);
        }
        Ok(texts)
    }

    fn text(&mut self) -> Result<String, RenderError> {
        let length = self.number();
        let text = copied(self.take(length))?;
        Ok(String::from_utf8(text).expect("texts are UTF-8"))
    }

    fn refusal(&mut self) -> RenderError {
        match self.byte() {
            0 => RenderError::NoGroup,
            1 => RenderError::NoTitle,
            kind @ 2..=4 => {
                let (group, element, marker) = (self.number(), self.number(), self.number());
                match kind {
                    2 => RenderError::SpanReversed { group, element, marker },
                    3 => RenderError::SpanPastEnd { group, element, marker },
                    _ => RenderError::SpanOffBoundary { group, element, marker },
                }
            }
            5 => RenderError::PatchesOverlap {
                group: self.number(),
                element: self.number(),
                first: self.number(),
                second: self.number(),
            },
            6 => RenderError::LineNumberTooLarge { group: self.number(), element: self.number() },
            _ => no_fit(),
        }
    }
}
