//! The open spans, in slots that are used again.
use crate::field::Fields;
use crate::id::Id;
use crate::layer::LayerSet;
use std::sync::Arc;

/// An open span.
pub struct Span {
    pub name: Arc<str>,
    pub fields: Fields,
    /// The layers that admit it.
    pub admitted: LayerSet,
    pub parent: Option<Id>,
    pub handles: u32,
    /// How many workers are inside.
    pub entries: u32,
    /// How many open spans have it as their parent.
    pub children: u32,
}

impl Span {
    pub fn count(&self) -> u64 {
        u64::from(self.handles) + u64::from(self.entries) + u64::from(self.children)
    }
}

struct Slot {
    generation: u32,
    span: Option<Span>,
}

/// The open spans by their ids.
pub struct Spans {
    slots: Vec<Slot>,
    /// The slots that are free and were used before, the one freed last at the end.
    freed: Vec<u32>,
    most: u32,
    last_generation: u32,
    open: usize,
}

impl Spans {
    pub fn new(most: u32, last_generation: u32) -> Spans {
        Spans {
            slots: Vec::new(),
            freed: Vec::new(),
            most,
            last_generation,
            open: 0,
        }
    }

    pub fn len(&self) -> usize {
        self.open
    }

    pub fn get(&self, id: Id) -> Option<&Span> {
        let slot = self.slots.get(id.slot() as usize)?;
        slot.span.as_ref().filter(|_| slot.generation == id.generation())
    }

    pub fn get_mut(&mut self, id: Id) -> Option<&mut Span> {
        let slot = self.slots.get_mut(id.slot() as usize)?;
        slot.span.as_mut().filter(|_| slot.generation == id.generation())
    }

    pub fn has_free_slot(&self) -> bool {
        !self.freed.is_empty() || self.slots.len() < self.most as usize
    }

    /// Puts a span into the slot that was freed last, or else into the lowest that was never used.
    pub fn insert(&mut self, span: Span) -> Id {
        self.open += 1;
        if let Some(number) = self.freed.pop() {
            let slot = &mut self.slots[number as usize];
            slot.span = Some(span);
            return Id::new(number, slot.generation);
        }
        self.slots.push(Slot {
            generation: 0,
            span: Some(span),
        });
        Id::new(self.slots.len() as u32 - 1, 0)
    }

    /// Takes an open span out. Its slot is free again, unless it gave its last id.
    pub fn remove(&mut self, id: Id) {
        let slot = &mut self.slots[id.slot() as usize];
        slot.span = None;
        self.open -= 1;
        if slot.generation < self.last_generation {
            slot.generation += 1;
            self.freed.push(id.slot());
        }
    }

    /// The names on the way from the root to the span that the layer admits, joined by `:`. `places` is room to work
    /// in.
    pub fn path(&self, layer: u32, id: Id, places: &mut Vec<u32>) -> Box<str> {
        places.clear();
        let (mut next, mut length) = (Some(id), 0);
        while let Some((id, span)) = next.and_then(|id| Some((id, self.in_slot(id.slot())?))) {
            if span.admitted.has(layer) {
                places.push(id.slot());
                length += span.name.len() + 1;
            }
            next = span.parent;
        }
        let mut path = String::with_capacity(length.saturating_sub(1));
        for place in places.iter().rev() {
            if !path.is_empty() {
                path.push(':');
            }
            path.push_str(self.in_slot(*place).map_or("", |span| &span.name));
        }
        path.into_boxed_str()
    }

    /// The span in the slot of an id that is known to be open.
    fn in_slot(&self, slot: u32) -> Option<&Span> {
        self.slots.get(slot as usize)?.span.as_ref()
    }
}
