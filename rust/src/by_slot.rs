//! What is kept of spans, by their slots.
#![forbid(unsafe_code)]
use crate::meta::RawId;
use crate::packed::reserve;
use crate::refusal::Refusal;

/// Of each slot, up to the greatest that there is something of, what is kept of one of its spans: mostly the last one.
pub(crate) struct BySlot<T>(Vec<Option<(RawId, T)>>);

impl<T> Default for BySlot<T> {
    fn default() -> BySlot<T> {
        BySlot(Vec::new())
    }
}

impl<T> BySlot<T> {
    /// Room for this span.
    pub(crate) fn reserve(&mut self, id: RawId) -> Result<(), Refusal> {
        let missing = (id.slot() + 1).saturating_sub(self.0.len());
        reserve(&mut self.0, missing)
    }

    /// Keeps this of a span, in place of what its slot has, which it answers. It takes no memory where there is room.
    pub(crate) fn put(&mut self, id: RawId, kept: T) -> Option<T> {
        if id.slot() >= self.0.len() {
            self.0.resize_with(id.slot() + 1, || None);
        }
        self.0[id.slot()].replace((id, kept)).map(|(_, earlier)| earlier)
    }

    /// What is kept of a span.
    pub(crate) fn get(&self, id: RawId) -> Option<&T> {
        let (owner, kept) = self.0.get(id.slot())?.as_ref()?;
        (*owner == id).then_some(kept)
    }

    pub(crate) fn get_mut(&mut self, id: RawId) -> Option<&mut T> {
        let (owner, kept) = self.0.get_mut(id.slot())?.as_mut()?;
        (*owner == id).then_some(kept)
    }

    /// Takes what is kept of a span away.
    pub(crate) fn take(&mut self, id: RawId) -> Option<T> {
        let slot = self.0.get_mut(id.slot())?;
        slot.take_if(|(owner, _)| *owner == id).map(|(_, kept)| kept)
    }

    /// The first span from this slot on of which something is kept.
    pub(crate) fn first_from(&self, slot: usize) -> Option<RawId> {
        let mut kept = self.0.get(slot..)?.iter().flatten();
        kept.next().map(|&(owner, _)| owner)
    }
}

#[cfg(test)]
mod tests {
    use super::BySlot;
    use crate::meta::RawId;
    use crate::refusal::Refusal;

    fn id(number: u64) -> RawId {
        RawId::from_u64(number).expect("not 0")
    }

    #[test]
    fn one_span_of_a_slot_is_kept() {
        let (first, other, next) = (id(1), id(5), id((1 << 24) + 1));
        let mut spans = BySlot::default();
        assert_eq!(spans.take(first), None);
        assert_eq!((spans.get(first), spans.first_from(0)), (None, None));
        assert_eq!((spans.put(other, 'b'), spans.put(first, 'a')), (None, None));
        assert_eq!((spans.get(first), spans.get(other)), (Some(&'a'), Some(&'b')));
        // Of another slot, and of another span of the same one.
        for missing in [id(2), next] {
            assert_eq!(spans.get(missing), None);
            assert_eq!(spans.get_mut(missing), None);
            assert_eq!(spans.take(missing), None);
        }
        assert_eq!(spans.put(next, 'c'), Some('a'));
        spans.get_mut(other).into_iter().for_each(|kept| *kept = 'd');
        assert_eq!(
            (spans.get(first), spans.get(next), spans.get(other)),
            (None, Some(&'c'), Some(&'d'))
        );
        let firsts = [0, 1, 4, 5].map(|slot| spans.first_from(slot));
        assert_eq!(firsts, [Some(next), Some(other), Some(other), None]);
        assert_eq!([first, next, next].map(|id| spans.take(id)), [None, Some('c'), None]);
        assert_eq!((spans.first_from(0), spans.first_from(9)), (Some(other), None));
    }

    #[test]
    fn to_keep_it_takes_no_memory_where_there_is_room() -> Result<(), Refusal> {
        let mut spans = BySlot::default();
        spans.reserve(id(100))?;
        let room = spans.0.capacity();
        assert!(room >= 100);
        spans.put(id(100), ());
        for last in [1, room as u64] {
            spans.reserve(id(last))?;
            spans.put(id(last), ());
            assert_eq!(spans.0.capacity(), room);
        }
        spans.reserve(id(room as u64 + 1))?;
        assert!(spans.0.capacity() > room);
        Ok(())
    }
}
