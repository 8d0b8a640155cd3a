use std::borrow::Cow;

/// A text that may be left out: what a path, a label or a level's name is made of. A text, lent or owned, converts into one, and so does
/// an option of one.
///
/// ```
/// use yazgult::AnnotationKind;
///
/// let mark = AnnotationKind::Primary.span(4..5);
/// let found: Option<String> = None;
/// mark.clone().label("never read");
/// mark.clone().label(format!("{} times", 3));
/// mark.label(found);
/// ```
#[derive(Debug)]
pub struct OptionCow<'a>(pub(crate) Option<Cow<'a, str>>);

impl<'a, T: Into<Cow<'a, str>>> From<Option<T>> for OptionCow<'a> {
    fn from(value: Option<T>) -> Self {
        OptionCow(value.map(Into::into))
    }
}

impl<'a> From<&'a Cow<'a, str>> for OptionCow<'a> {
    fn from(value: &'a Cow<'a, str>) -> Self {
        OptionCow(Some(Cow::Borrowed(value)))
    }
}

impl<'a> From<Cow<'a, str>> for OptionCow<'a> {
    fn from(value: Cow<'a, str>) -> Self {
        OptionCow(Some(value))
    }
}

impl<'a> From<&'a str> for OptionCow<'a> {
    fn from(value: &'a str) -> Self {
        OptionCow(Some(Cow::Borrowed(value)))
    }
}

impl From<String> for OptionCow<'_> {
    fn from(value: String) -> Self {
        OptionCow(Some(Cow::Owned(value)))
    }
}

impl<'a> From<&'a String> for OptionCow<'a> {
    fn from(value: &'a String) -> Self {
        OptionCow(Some(Cow::Borrowed(value)))
    }
}
