//! The spans that are open, and what keeps them open.
#![forbid(unsafe_code)]
use crate::drain::Drain;
use crate::error::Error;
use crate::level::Level;
use crate::meta::{Id, RawId};
use crate::origins::Details;
use crate::part::Part;
use crate::parts::Parts;
use crate::raw::SpanFound;
use crate::refusal::Refusal;
use crate::registry::Registry;
use crate::state::State;
use crate::workers;
use crate::writer::Guard;
use std::collections::{HashMap, HashSet};
use std::fmt;

/// An open span, as it is found under the lock.
pub(crate) struct Open {
    pub(crate) id: RawId,
    pub(crate) found: SpanFound,
    pub(crate) details: Details,
    /// The workers that are inside.
    pub(crate) inside: Vec<u32>,
}

impl Open {
    fn children(&self) -> u32 {
        self.found.count - self.found.handles - self.found.entries
    }

    /// The fields of an event that tells of it, where it lies in this part.
    pub(crate) fn fields(&self, part: u32) -> Vec<(&'static str, String)> {
        let Open { id, found, details, .. } = self;
        let mut fields = vec![("span", id.in_part(part).to_string()), ("name", details.name.clone())];
        if let Some((file, line)) = details.place {
            fields.push(("place", format!("{file}:{line}")));
        }
        let counts = [
            ("handles", found.handles),
            ("entries", found.entries),
            ("children", self.children()),
        ];
        fields.extend(counts.map(|(key, count)| (key, count.to_string())));
        fields
    }
}

/// A span that was open when it was asked for, with what holds it.
#[derive(Clone, Debug, PartialEq, Eq)]
#[non_exhaustive]
pub struct OpenSpan {
    /// Its id.
    pub id: Id,
    /// None for a root.
    pub parent: Option<Id>,
    /// Its name.
    pub name: String,
    /// Its target.
    pub target: String,
    /// Its level.
    pub level: Level,
    /// The file and the line of its macro; none of a span that was made by a method.
    pub place: Option<(&'static str, u32)>,
    /// Its fields, in order, with those that were recorded: the first 4 KiB.
    pub fields: Vec<(String, String)>,
    /// Whether it has more fields than those.
    pub is_cut: bool,
    /// How many handles are out.
    pub handles: u32,
    /// How many threads are inside.
    pub entries: u32,
    /// Their workers' numbers, ascending. One that entered more than once has to leave as often.
    pub inside: Vec<u32>,
    /// How many of its children are open.
    pub children: u32,
}

impl OpenSpan {
    fn of(part: &Part, open: Open) -> Option<OpenSpan> {
        let (registry, place) = (part.common().number(), part.place());
        let (children, found, details) = (open.children(), open.found, open.details);
        Some(OpenSpan {
            id: Id::of(registry, place, open.id),
            parent: RawId::from_u64(found.parent).map(|parent| Id::of(registry, place, parent)),
            name: details.name,
            target: details.target,
            level: Level::of_verbosity(found.level)?,
            place: details.place,
            fields: details.fields,
            is_cut: details.is_cut,
            handles: found.handles,
            entries: found.entries,
            inside: open.inside,
            children,
        })
    }

    /// Whether something other than its children holds it.
    #[must_use]
    pub fn is_held(&self) -> bool {
        self.handles > 0 || self.entries > 0
    }
}

/// `request (1) path=/users, src/main.rs:7: 2 handles, 1 thread inside (w3), 1 open child`
impl fmt::Display for OpenSpan {
    fn fmt(&self, f: &mut fmt::Formatter<'_>) -> fmt::Result {
        write!(f, "{} ({})", self.name.escape_debug(), self.id)?;
        for (key, value) in &self.fields {
            write!(f, " {}={}", key.escape_debug(), value.escape_debug())?;
        }
        if self.is_cut {
            f.write_str(" ..")?;
        }
        if let Some((file, line)) = self.place {
            write!(f, ", {file}:{line}")?;
        }
        let workers: Vec<String> = self.inside.iter().map(|worker| format!("w{worker}")).collect();
        let inside = format!(" ({})", workers.join(" "));
        let parts = [
            (self.handles, "handle", "handles", ""),
            (self.entries, "thread inside", "threads inside", &inside),
            (self.children, "open child", "open children", ""),
        ];
        let mut sign = ":";
        for (count, one, more, which) in parts.into_iter().filter(|&(count, ..)| count > 0) {
            write!(f, "{sign} {count} {}{which}", if count == 1 { one } else { more })?;
            sign = ",";
        }
        Ok(())
    }
}

/// Open spans of one moment, by ascending slot; of several [parts](crate::RegistryBuilder::parts) one after another,
/// each of its own moment. Its text is their trees, a line a span, which stands by two blanks further in than its
/// parent's, as far as the fortieth below a root.
#[derive(Clone, Debug, Default, PartialEq, Eq)]
pub struct OpenSpans(Vec<OpenSpan>);

impl OpenSpans {
    /// How many they are.
    #[must_use]
    pub fn len(&self) -> usize {
        self.0.len()
    }

    /// Whether there is none.
    #[must_use]
    pub fn is_empty(&self) -> bool {
        self.0.is_empty()
    }

    /// One after another.
    pub fn iter(&self) -> std::slice::Iter<'_, OpenSpan> {
        self.0.iter()
    }

    fn found(part: &Part, find: impl FnOnce(&mut State) -> Result<Vec<Open>, Refusal>) -> Result<OpenSpans, Error> {
        let open = part.settled(find)?;
        let told = open.into_iter().filter_map(|span| OpenSpan::of(part, span));
        Ok(OpenSpans(told.collect()))
    }

    fn of_all(parts: &Parts) -> Result<OpenSpans, Error> {
        let mut all = OpenSpans::default();
        for part in parts.all() {
            all.0.append(&mut OpenSpans::found(part, State::open_spans)?.0);
        }
        Ok(all)
    }

    // In the order of their trees, each with its depth.
    fn trees(&self) -> Vec<(usize, &OpenSpan)> {
        let mut children: HashMap<Option<Id>, Vec<&OpenSpan>> = HashMap::new();
        let is_here: HashSet<Id> = self.0.iter().map(|span| span.id).collect();
        for span in self.0.iter().rev() {
            let parent = span.parent.filter(|parent| is_here.contains(parent));
            children.entry(parent).or_default().push(span);
        }
        let (mut trees, mut left) = (Vec::new(), Vec::new());
        left.extend(
            children
                .remove(&None)
                .unwrap_or_default()
                .into_iter()
                .map(|root| (0, root)),
        );
        while let Some((depth, span)) = left.pop() {
            trees.push((depth, span));
            let below = children.remove(&Some(span.id)).unwrap_or_default();
            left.extend(below.into_iter().map(|child| (depth + 1, child)));
        }
        trees
    }
}

impl<'a> IntoIterator for &'a OpenSpans {
    type Item = &'a OpenSpan;
    type IntoIter = std::slice::Iter<'a, OpenSpan>;

    fn into_iter(self) -> Self::IntoIter {
        self.iter()
    }
}

/// The deepest span whose line stands further in than its parent's: else the lines of a long chain would be mostly
/// blanks.
const DEEPEST: usize = 40;

impl fmt::Display for OpenSpans {
    fn fmt(&self, f: &mut fmt::Formatter<'_>) -> fmt::Result {
        for (depth, span) in self.trees() {
            writeln!(f, "{:1$}{span}", "", 2 * depth.min(DEEPEST))?;
        }
        Ok(())
    }
}

impl Registry {
    /// All spans that are open, of one moment. What is owed and can't be done now counts as not done.
    ///
    /// It looks at each slot that was ever used, and reads all texts of each open span, under the lock.
    ///
    /// # Errors
    /// [`OutOfMemory`](Error::OutOfMemory).
    ///
    /// ```
    /// # fn main() -> Result<(), span_registry::Error> {
    /// use span_registry::{span, Level, Registry};
    /// let (registry, _drain) = Registry::builder().build()?;
    /// let request = span!(registry, Level::Info, "request");
    /// let query = span!(registry, parent: &request, Level::Info, "query");
    /// let _inside = query.enter();
    /// let open = registry.open_spans()?.to_string();
    /// let lines: Vec<&str> = open.lines().collect();
    /// assert!(lines[0].starts_with("request (1), ") && lines[0].ends_with(": 1 handle, 1 open child"));
    /// assert!(lines[1].starts_with("  query (2), ") && lines[1].ends_with(": 1 handle, 1 thread inside (w0)"));
    /// # Ok(())
    /// # }
    /// ```
    pub fn open_spans(&self) -> Result<OpenSpans, Error> {
        OpenSpans::of_all(self.parts())
    }

    /// A span that is open, of one moment. [`find`](Registry::find) tells its counts alone, and takes no memory.
    ///
    /// # Errors
    /// [`OtherRegistry`](Error::OtherRegistry), [`Unknown`](Error::Unknown) where it isn't open,
    /// [`OutOfMemory`](Error::OutOfMemory).
    ///
    /// ```
    /// # fn main() -> Result<(), span_registry::Error> {
    /// # let (registry, _drain) = span_registry::Registry::builder().build()?;
    /// use span_registry::{span, Level};
    /// let request = span!(registry, target: "app", Level::Info, "request", user = 7);
    /// let found = registry.open_span(request.id().expect("made"))?;
    /// assert_eq!((&*found.name, &*found.target, found.level), ("request", "app", Level::Info));
    /// assert_eq!(found.fields, [("user".to_owned(), "7".to_owned())]);
    /// # Ok(())
    /// # }
    /// ```
    pub fn open_span(&self, id: Id) -> Result<OpenSpan, Error> {
        let (at, id) = self.own(id)?;
        let open = at.part.settled(|state| state.open_span(id))?;
        OpenSpan::of(at.part, open).ok_or(Error::Unknown)
    }

    /// Why a span is open: itself, the open spans at it or below it that [are held](OpenSpan::is_held), and those
    /// between. It closes with the last that is held, and not before.
    ///
    /// It costs what [`open_spans`](Registry::open_spans) does.
    ///
    /// # Errors
    /// [`OtherRegistry`](Error::OtherRegistry), [`Unknown`](Error::Unknown) where it isn't open,
    /// [`OutOfMemory`](Error::OutOfMemory).
    pub fn why_open(&self, id: Id) -> Result<OpenSpans, Error> {
        let (at, id) = self.own(id)?;
        OpenSpans::found(at.part, |state| state.why_open(id))
    }
}

impl Drain {
    /// As [`Registry::open_spans`], also where the registry is gone and guards that were forgotten keep spans open.
    ///
    /// # Errors
    /// [`OutOfMemory`](Error::OutOfMemory).
    pub fn open_spans(&self) -> Result<OpenSpans, Error> {
        // As where it looks for lines.
        workers::writing(self.parts().common(), || OpenSpans::of_all(self.parts()))
    }
}

impl Guard {
    /// As [`Registry::open_spans`].
    ///
    /// # Errors
    /// [`OutOfMemory`](Error::OutOfMemory).
    pub fn open_spans(&self) -> Result<OpenSpans, Error> {
        OpenSpans::of_all(self.parts())
    }
}
