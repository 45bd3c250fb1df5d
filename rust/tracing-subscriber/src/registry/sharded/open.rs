//! Which spans are there, and what holds each.
use super::Registry;
use std::{
    collections::{HashMap, HashSet},
    fmt,
};
use tracing_core::{span::Id, Metadata};

/// A span that is there, as [`Registry::open_spans`] tells it.
#[cfg(feature = "registry")]
#[cfg_attr(docsrs, doc(cfg(all(feature = "registry", feature = "std"))))]
#[derive(Clone, Debug)]
#[non_exhaustive]
pub struct OpenSpan {
    /// Its id.
    pub id: Id,
    /// Its parent, which it holds.
    pub parent: Option<Id>,
    /// How many spans it is below.
    pub depth: usize,
    /// Its name, target and level, and where it was made.
    pub metadata: &'static Metadata<'static>,
    /// How many handles and entries hold it.
    pub handles: u32,
    /// How many spans that are there have it for their parent: each holds it, too.
    pub children: u32,
}

impl OpenSpan {
    /// Whether nothing holds it any longer, and the layers are being told of that.
    pub fn is_closing(&self) -> bool {
        self.handles == 0 && self.children == 0
    }
}

/// A line without its end, further in the more spans it is below.
impl fmt::Display for OpenSpan {
    fn fmt(&self, f: &mut fmt::Formatter<'_>) -> fmt::Result {
        let (site, indent) = (self.metadata, 2 * self.depth);
        write!(f, "{:indent$}{} ({} {}", "", site.name(), site.level(), site.target())?;
        if let (Some(file), Some(line)) = (site.file(), site.line()) {
            write!(f, ", {file}:{line}")?;
        }
        match (self.handles, self.children) {
            (0, 0) => f.write_str("): closing"),
            (handles, children) => write!(f, "): handles {handles}, children {children}"),
        }
    }
}

impl Registry {
    /// The spans that are there, each root with all below it, and what holds each of them. Where spans stay that were
    /// to close, it says which, what is still theirs, and where they were made.
    ///
    /// Spans that are made or close meanwhile may be among them or not. It looks at each slot that was ever used, and
    /// holds no lock for longer than it looks at one.
    pub fn open_spans(&self) -> Vec<OpenSpan> {
        let mut spans = Vec::new();
        let mut apart = HashMap::new();
        self.spans.each(|data, found| {
            if let (true, Some(parent)) = (data.is_apart, &data.parent) {
                *apart.entry(parent.into_u64()).or_insert(0) += 1;
            }
            spans.push(OpenSpan {
                id: Id::from_u64(data.id),
                parent: data.parent.clone(),
                depth: 0,
                metadata: data.metadata.expect("a span has metadata from its start"),
                handles: found.handles,
                children: found.children,
            });
        });
        // A child in another store has a handle of its parent.
        for span in &mut spans {
            let children = apart.get(&span.id.into_u64()).map_or(0, |count: &u32| span.handles.min(*count));
            span.handles -= children;
            span.children += children;
        }
        by_trees(spans)
    }
}

/// Each root, or span whose parent isn't among them, with all below it.
fn by_trees(spans: Vec<OpenSpan>) -> Vec<OpenSpan> {
    let ids: HashSet<u64> = spans.iter().map(|span| span.id.into_u64()).collect();
    let mut below: HashMap<u64, Vec<OpenSpan>> = HashMap::new();
    for span in spans {
        let parent = span.parent.as_ref().map_or(0, Id::into_u64);
        below.entry(if ids.contains(&parent) { parent } else { 0 }).or_default().push(span);
    }
    let mut ordered = Vec::with_capacity(ids.len());
    let mut rest = below.remove(&0).unwrap_or_default();
    rest.reverse();
    while let Some(span) = rest.pop() {
        let children = below.remove(&span.id.into_u64()).unwrap_or_default();
        rest.extend(children.into_iter().rev().map(|child| OpenSpan { depth: span.depth + 1, ..child }));
        ordered.push(span);
    }
    ordered
}
