//! The spans that a thread has entered in a registry.
pub(crate) use tracing_core::span::Id;

/// Stands in an entry whose span was entered before it: such an entry holds nothing, and is never the current one. No
/// id of a registry has it.
const IS_TWIN: u64 = 1 << 63;

/// The entered spans, the innermost last.
#[derive(Debug, Default)]
pub(crate) struct SpanStack(Vec<u64>);

impl SpanStack {
    /// Enters a span, and answers whether it wasn't entered yet: then the entry holds it.
    #[inline]
    pub(super) fn push(&mut self, id: Id) -> bool {
        let id = id.into_u64();
        let is_twin = !self.0.is_empty() && self.0.contains(&id);
        self.0.push(if is_twin { id | IS_TWIN } else { id });
        !is_twin
    }

    /// Leaves the innermost entry of a span, and answers whether it held the span.
    #[inline]
    pub(super) fn pop(&mut self, id: &Id) -> bool {
        let id = id.into_u64();
        if self.0.last() == Some(&id) {
            self.0.pop();
            return true;
        }
        match self.0.iter().rposition(|entry| entry & !IS_TWIN == id) {
            Some(at) => self.0.remove(at) == id,
            None => false,
        }
    }

    pub(super) fn is_empty(&self) -> bool {
        self.0.is_empty()
    }

    /// The spans that are held, from the innermost on.
    #[inline]
    pub(crate) fn iter(&self) -> impl Iterator<Item = Id> + '_ {
        let held = |entry: &&u64| **entry & IS_TWIN == 0;
        self.0.iter().rev().filter(held).map(|id| Id::from_u64(*id))
    }

    /// The innermost entry below a place, or of all, that holds its span, with its place.
    pub(super) fn next(&self, below: usize) -> Option<(usize, Id)> {
        let entries = &self.0[..below.min(self.0.len())];
        let at = entries.iter().rposition(|entry| entry & IS_TWIN == 0)?;
        Some((at, Id::from_u64(entries[at])))
    }

    #[inline]
    pub(crate) fn current(&self) -> Option<Id> {
        match self.0.last() {
            Some(id) if id & IS_TWIN != 0 => self.iter().next(),
            id => id.map(|id| Id::from_u64(*id)),
        }
    }
}
