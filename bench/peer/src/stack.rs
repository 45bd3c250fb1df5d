//! The spans that a worker has entered.
use crate::id::Id;

#[derive(Clone, Copy)]
struct Entry {
    id: Id,
    /// The id stands further down too.
    again: bool,
}

/// The entries of a worker, the topmost last.
#[derive(Default)]
pub struct Stack {
    entries: Vec<Entry>,
}

impl Stack {
    pub fn has(&self, id: Id) -> bool {
        self.entries.iter().any(|entry| entry.id == id)
    }

    pub fn push(&mut self, id: Id, again: bool) {
        self.entries.push(Entry { id, again });
    }

    /// The last entry of the id: its place, and whether the id stands further down too.
    pub fn last_of(&self, id: Id) -> Option<(usize, bool)> {
        let place = self.entries.iter().rposition(|entry| entry.id == id)?;
        Some((place, self.entries[place].again))
    }

    pub fn remove(&mut self, place: usize) {
        self.entries.remove(place);
    }

    /// The last entry, be it a duplicate or not.
    pub fn last(&self) -> Option<Id> {
        self.entries.last().map(|entry| entry.id)
    }

    /// The entries that are no duplicates, from the top.
    pub fn walk(&self) -> impl Iterator<Item = Id> + '_ {
        self.entries
            .iter()
            .rev()
            .filter(|entry| !entry.again)
            .map(|entry| entry.id)
    }
}
