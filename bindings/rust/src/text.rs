//! Questions about texts that come from anyone.
//!
//! ```
//! use yazgult::text::is_link_address;
//!
//! assert!(is_link_address("https://a.example/E1"));
//! ```

/// Whether an address may be a link, whoever wrote it: it is of the web or of mail, so it begins with `http:`, `https:` or `mailto:`, in
/// letters of either case, and each of its bytes is an ASCII character that is seen. So no such address runs a script, and none holds a
/// blank, a line feed or an escape code.
///
/// The address of a title is written to a terminal as it is given. So ask this of one that comes from anyone, and leave the link out
/// where it is none; [`Renderer::render_html`](crate::Renderer::render_html) does that unasked.
///
/// ```
/// use yazgult::text::is_link_address;
/// use yazgult::Level;
///
/// let told = "https://a.example/\x07\x1b]0;title";
/// let title = Level::ERROR.primary_title("e").id("E1");
/// let title = if is_link_address(told) { title.id_url(told) } else { title };
/// # drop(title);
/// assert!(!is_link_address(told));
/// ```
pub fn is_link_address(address: &str) -> bool {
    let has_scheme = |scheme: &str| match address.get(..scheme.len()) {
        Some(start) => start.eq_ignore_ascii_case(scheme),
        None => false,
    };
    ["http:", "https:", "mailto:"].into_iter().any(has_scheme) && address.bytes().all(|byte| byte.is_ascii_graphic())
}
