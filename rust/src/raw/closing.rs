//! The calls that tell which spans they closed.
use super::{span_registry_exit_closing, span_registry_try_close_closing, Core};
use crate::meta::RawId;
use crate::refusal::Refusal;

/// Of how many it is told which they are.
const ROOM: usize = 32;

/// The spans that a call closed, child first.
pub(crate) struct Closed {
    ids: [u64; ROOM],
    count: usize,
}

impl Closed {
    // `call` is given where the ids go, how many there is room for, and where their number goes.
    fn told(call: impl FnOnce(*mut u64, usize, *mut usize) -> u32) -> Result<Closed, Refusal> {
        let (mut ids, mut count) = ([0; ROOM], 0);
        Refusal::of_status(call(ids.as_mut_ptr(), ids.len(), &mut count))?;
        Ok(Closed { ids, count })
    }

    /// Which they are; none where there was no room for all.
    pub(crate) fn ids(&self) -> Option<impl DoubleEndedIterator<Item = RawId> + '_> {
        let ids = self.ids.get(..self.count)?;
        Some(ids.iter().filter_map(|&id| RawId::from_u64(id)))
    }

    /// How many they are.
    pub(crate) fn count(&self) -> usize {
        self.count
    }
}

impl Core {
    /// As [`exit`](Core::exit).
    pub(crate) fn exit_closing(&mut self, worker: u32, id: RawId) -> Result<Closed, Refusal> {
        let handle = self.handle();
        // SAFETY: the handle is full and lent to this call alone, and `told` gives values of its own with their number.
        Closed::told(|into, room, count| unsafe {
            span_registry_exit_closing(handle, worker, id.get(), into, room, count)
        })
    }

    /// As [`try_close`](Core::try_close).
    pub(crate) fn try_close_closing(&mut self, worker: u32, id: RawId) -> Result<Closed, Refusal> {
        let handle = self.handle();
        // SAFETY: the handle is full and lent to this call alone, and `told` gives values of its own with their number.
        Closed::told(|into, room, count| unsafe {
            span_registry_try_close_closing(handle, worker, id.get(), into, room, count)
        })
    }
}
