use crate::grow::Written;
use crate::library::Kept;
use std::borrow::Cow;
use std::fmt;
use std::sync::{Arc, Mutex, MutexGuard, PoisonError, TryLockError};

/// A source that is kept, with the bytes at which its lines start, and lent to any number of snippets by
/// [`Snippet::indexed`](crate::Snippet::indexed), in any threads.
///
/// What is drawn depends on its text alone. The library keeps a copy of the text with its lines, so that drawing neither hands it over nor
/// looks for lines; where it had no memory for that, each drawing is handed the text.
///
/// ```
/// use yazgult::SourceLines;
///
/// let lines = SourceLines::new("a\nlet x = 1;\n");
/// let line = lines.starts().partition_point(|start| *start <= 6);
/// assert_eq!((line, lines.starts()), (2, &[0, 2][..]));
/// ```
#[derive(Clone)]
pub struct SourceLines<'a> {
    source: Cow<'a, str>,
    starts: Vec<usize>,
    kept: Option<Shared>,
}

impl<'a> SourceLines<'a> {
    /// Finds the lines of a source, which may be lent or owned.
    ///
    /// ```
    /// use yazgult::SourceLines;
    ///
    /// let lines = SourceLines::new(String::from("a\nb"));
    /// assert_eq!(lines.starts(), [0, 2]);
    /// ```
    pub fn new(source: impl Into<Cow<'a, str>>) -> Self {
        let source = source.into();
        let after_line_feeds = source.match_indices('\n').map(|(at, _)| at + 1);
        let starts = std::iter::once(0).chain(after_line_feeds.filter(|start| *start < source.len())).collect();
        let kept = Shared::of(&source);
        SourceLines { source, starts, kept }
    }

    /// The source.
    ///
    /// ```
    /// use yazgult::SourceLines;
    ///
    /// assert_eq!(SourceLines::new("a\nb").source(), "a\nb");
    /// ```
    pub fn source(&self) -> &str {
        &self.source
    }

    /// The byte at which each line of the source starts. An empty source has one line, and none begins at a source's end.
    ///
    /// ```
    /// use yazgult::SourceLines;
    ///
    /// assert_eq!(SourceLines::new("").starts(), [0]);
    /// assert_eq!(SourceLines::new("a\n\nb\n").starts(), [0, 2, 3]);
    /// ```
    pub fn starts(&self) -> &[usize] {
        &self.starts
    }

    /// The source as the library keeps it; none where it had no memory.
    pub(crate) fn kept(&self) -> Option<&Shared> {
        self.kept.as_ref()
    }
}

/// A source that the library keeps, shared by all that name it.
#[derive(Clone)]
pub(crate) struct Shared(Arc<Lists>);

/// Two lists that keep a source alone. A list of the library's is used by one call at a time.
struct Lists {
    /// The one that others get it from, which is used for that alone, so that nobody waits for a drawing.
    given: Mutex<Kept>,
    /// The one that it is drawn over.
    drawn: Mutex<Kept>,
}

impl Shared {
    fn of(source: &str) -> Option<Self> {
        let mut given = Kept::new().ok()?;
        given.add(source).ok()?;
        let mut drawn = Kept::new().ok()?;
        drawn.share(&mut given).ok()?;
        Some(Shared(Arc::new(Lists { given: Mutex::new(given), drawn: Mutex::new(drawn) })))
    }

    /// Whether both are one.
    pub(crate) fn is(&self, other: &Shared) -> bool {
        Arc::ptr_eq(&self.0, &other.0)
    }

    /// A list that keeps the source alone, unless another thread draws over it.
    pub(crate) fn try_lock(&self) -> Option<MutexGuard<'_, Kept>> {
        match self.0.drawn.try_lock() {
            Ok(list) => Some(list),
            Err(TryLockError::Poisoned(poisoned)) => Some(poisoned.into_inner()),
            Err(TryLockError::WouldBlock) => None,
        }
    }

    /// Has a list keep the source too.
    pub(crate) fn share_into(&self, all: &mut Kept) -> Written {
        all.share(&mut self.0.given.lock().unwrap_or_else(PoisonError::into_inner))
    }
}

impl fmt::Debug for Shared {
    fn fmt(&self, f: &mut fmt::Formatter<'_>) -> fmt::Result {
        f.write_str("kept")
    }
}

/// The text alone.
impl fmt::Debug for SourceLines<'_> {
    fn fmt(&self, f: &mut fmt::Formatter<'_>) -> fmt::Result {
        self.source.fmt(f)
    }
}
