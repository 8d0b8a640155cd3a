/// A text without the characters that could change how a terminal shows what stands around them: each has another text in its place,
/// as the library draws it, and all other characters are kept.
///
/// It is for texts that are drawn as they are, as a message's, and come from anyone.
///
/// ```
/// use yazgult::normalize_untrusted_str;
///
/// assert_eq!(normalize_untrusted_str("a\tb\x1b[31m"), "a    b␛[31m");
/// ```
pub fn normalize_untrusted_str(s: &str) -> String {
    let mut out = String::with_capacity(s.len());
    for c in s.chars() {
        match c {
            '\t' => out.push_str("    "),
            '\u{200d}' => {}
            '\0'..='\u{8}' | '\u{b}'..='\u{1f}' => out.extend(char::from_u32(0x2400 + c as u32)),
            '\u{7f}' => out.push('\u{2421}'),
            '\u{202a}'..='\u{202e}' | '\u{2066}'..='\u{2069}' => out.push('\u{fffd}'),
            _ => out.push(c),
        }
    }
    out
}
