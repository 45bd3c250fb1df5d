//! What is owed: what drops and ends of threads could not do because the ring was full or memory was refused.
#![forbid(unsafe_code)]
use crate::meta::RawId;
use crate::packed::reserve;
use crate::refusal::Refusal;
use std::collections::VecDeque;
use std::sync::atomic::{AtomicBool, AtomicU32, Ordering};
use std::sync::Arc;

/// Whether a part owes something, told without its lock.
pub(crate) struct Debt {
    is_there: AtomicBool,
    // How many parts of the registry owe something.
    parts: Arc<AtomicU32>,
}

impl Debt {
    /// None yet.
    pub(crate) fn new(parts: Arc<AtomicU32>) -> Debt {
        Debt {
            is_there: AtomicBool::new(false),
            parts,
        }
    }

    /// Where it is not, what was owed is done.
    #[inline]
    pub(crate) fn is_there(&self) -> bool {
        self.is_there.load(Ordering::Acquire)
    }

    fn begins(&self) {
        self.is_there.store(true, Ordering::Release);
        self.parts.fetch_add(1, Ordering::AcqRel);
    }

    fn ends(&self) {
        self.is_there.store(false, Ordering::Release);
        self.parts.fetch_sub(1, Ordering::AcqRel);
    }
}

/// Something that is still to be done.
#[derive(Clone, Copy, Debug, PartialEq, Eq)]
pub(crate) enum Owed {
    /// This worker's topmost entry of this span.
    Exit { worker: u32, id: RawId },
    /// A handle of this span.
    Close { worker: u32, id: RawId },
    /// All that this worker is still inside of, and then its number.
    Leave { worker: u32 },
}

/// What is owed, and what may still come to be owed: an exit of each entry, a close of each handle, and the end of
/// each worker, once. Room for all of it is made when the entry or the handle is, so to owe takes no memory.
pub(crate) struct Owing {
    // In the order in which it came.
    list: VecDeque<Owed>,
    // Whether it is not empty.
    debt: Arc<Debt>,
    // Handles and entries, duplicates too, that are not given back.
    held: usize,
    // By worker: the spans of its entries whose exits aren't owed, the outermost first.
    inside: Vec<Vec<RawId>>,
    // By slot: how many closes of the slot's span are owed.
    closes: Vec<u32>,
}

impl Owing {
    /// Of so many workers. Nothing is owed.
    pub(crate) fn new(workers: usize, debt: Arc<Debt>) -> Result<Owing, Refusal> {
        let mut inside = Vec::new();
        inside.try_reserve_exact(workers).map_err(|_| Refusal::OUT_OF_MEMORY)?;
        inside.resize_with(workers, Vec::new);
        let mut owing = Owing {
            list: VecDeque::new(),
            debt,
            held: 0,
            inside,
            closes: Vec::new(),
        };
        owing.reserve(0)?;
        Ok(owing)
    }

    pub(crate) fn debt(&self) -> &Arc<Debt> {
        &self.debt
    }

    // For the ends of all workers, for all that is held, and for so many more.
    #[inline]
    fn reserve(&mut self, more: usize) -> Result<(), Refusal> {
        let room = self.inside.len() + self.held + more;
        if room <= self.list.capacity() {
            Ok(())
        } else {
            self.grow(room)
        }
    }

    #[cold]
    #[inline(never)]
    fn grow(&mut self, room: usize) -> Result<(), Refusal> {
        let missing = room - self.list.len();
        self.list.try_reserve(missing).map_err(|_| Refusal::OUT_OF_MEMORY)
    }

    /// Room for the handle of a new span, whose slot may be one that no span had before.
    #[inline]
    pub(crate) fn reserve_span(&mut self) -> Result<(), Refusal> {
        reserve(&mut self.closes, 1)?;
        self.reserve(1)
    }

    /// Room for one handle more of a span.
    pub(crate) fn reserve_handle(&mut self) -> Result<(), Refusal> {
        self.reserve(1)
    }

    /// Room for one entry more of a worker.
    #[inline]
    pub(crate) fn reserve_entry(&mut self, worker: u32) -> Result<(), Refusal> {
        reserve(&mut self.inside[worker as usize], 1)?;
        self.reserve(1)
    }

    /// A span was made, with one handle.
    #[inline]
    pub(crate) fn made(&mut self, id: RawId) {
        // The registry uses its slots in ascending order, so there is room.
        if id.slot() == self.closes.len() {
            self.closes.push(0);
        }
        self.held += 1;
    }

    /// A span has one handle more.
    pub(crate) fn cloned(&mut self) {
        self.held += 1;
    }

    /// A worker entered a span.
    #[inline]
    pub(crate) fn entered(&mut self, worker: u32, id: RawId) {
        self.inside[worker as usize].push(id);
        self.held += 1;
    }

    /// A handle or an entry was given back.
    pub(crate) fn given_back(&mut self) {
        self.held -= 1;
    }

    /// This worker's topmost entry of this span is left, so its exit can't come to be owed. Whether there was one.
    #[inline]
    pub(crate) fn left(&mut self, worker: u32, id: RawId) -> bool {
        let inside = &mut self.inside[worker as usize];
        // Mostly it is the innermost.
        if inside.last() == Some(&id) {
            inside.pop();
            return true;
        }
        let place = inside.iter().rposition(|&entry| entry == id);
        place.map(|place| inside.remove(place)).is_some()
    }

    /// The same of all entries of this worker.
    pub(crate) fn left_all(&mut self, worker: u32) {
        self.inside[worker as usize] = Vec::new();
    }

    /// Owes an exit; refused where the worker has no entry of the span whose exit isn't owed already.
    #[cold]
    pub(crate) fn owe_exit(&mut self, worker: u32, id: RawId) -> Result<(), Refusal> {
        self.has_room()?;
        if !self.left(worker, id) {
            return Err(Refusal::NOT_ENTERED);
        }
        self.owe(Owed::Exit { worker, id });
        Ok(())
    }

    /// Owes a close of a span of which so many handles are out; refused where so many are owed already.
    pub(crate) fn owe_close(&mut self, worker: u32, id: RawId, handles: u32) -> Result<(), Refusal> {
        self.has_room()?;
        let owed = self.closes.get_mut(id.slot()).filter(|owed| **owed < handles);
        *owed.ok_or(Refusal::UNKNOWN)? += 1;
        self.owe(Owed::Close { worker, id });
        Ok(())
    }

    /// Owes the end of a worker, whose exits can't come to be owed any longer.
    pub(crate) fn owe_end(&mut self, worker: u32) -> Result<(), Refusal> {
        self.has_room()?;
        self.left_all(worker);
        self.owe(Owed::Leave { worker });
        Ok(())
    }

    fn owe(&mut self, owed: Owed) {
        if self.list.is_empty() {
            self.debt.begins();
        }
        self.list.push_back(owed);
    }

    // It has. Were there none, that would be an answer too.
    fn has_room(&mut self) -> Result<(), Refusal> {
        self.list.try_reserve(1).map_err(|_| Refusal::OUT_OF_MEMORY)
    }

    #[inline]
    pub(crate) fn first(&self) -> Option<Owed> {
        self.list.front().copied()
    }

    /// The first was done.
    pub(crate) fn done(&mut self) {
        let Some(done) = self.list.pop_front() else { return };
        if let Owed::Close { id, .. } = done {
            self.closes[id.slot()] -= 1;
        }
        if self.list.is_empty() {
            self.debt.ends();
        }
    }

    /// How many calls at most it takes to do all of it: each gives back what is held.
    pub(crate) fn calls(&self) -> u64 {
        if self.list.is_empty() {
            0
        } else {
            self.held as u64
        }
    }

    pub(crate) fn len(&self) -> usize {
        self.list.len()
    }
}

#[cfg(test)]
mod tests {
    use super::{Debt, Owed, Owing};
    use crate::meta::RawId;
    use crate::refusal::Refusal;
    use std::sync::atomic::{AtomicU32, Ordering};
    use std::sync::Arc;

    fn id(number: u64) -> RawId {
        RawId::from_u64(number).expect("not 0")
    }

    fn owing_of(workers: usize) -> Result<Owing, Refusal> {
        Owing::new(workers, Arc::new(Debt::new(Arc::default())))
    }

    #[test]
    fn whether_something_is_owed_is_known_of_each_part_and_of_all() -> Result<(), Refusal> {
        let parts = Arc::new(AtomicU32::new(0));
        let debts = [(); 2].map(|()| Arc::new(Debt::new(Arc::clone(&parts))));
        let mut all = Vec::new();
        for debt in &debts {
            let mut owing = Owing::new(1, Arc::clone(debt))?;
            owing.reserve_span()?;
            owing.made(id(1));
            all.push(owing);
        }
        let owing = || debts.each_ref().map(|debt| debt.is_there());
        let known = || (owing(), parts.load(Ordering::Relaxed));
        assert_eq!(known(), ([false, false], 0));
        all[0].owe_close(0, id(1), 1)?;
        all[0].owe_end(0)?;
        assert_eq!(known(), ([true, false], 1));
        all[1].owe_end(0)?;
        assert_eq!(known(), ([true, true], 2));
        all[0].done();
        assert_eq!(known(), ([true, true], 2));
        all[0].done();
        all[0].done();
        assert_eq!(known(), ([false, true], 1));
        all[1].done();
        assert_eq!(known(), ([false, false], 0));
        Ok(())
    }

    #[test]
    fn no_more_is_owed_than_is_held() -> Result<(), Refusal> {
        let (a, b) = (id(1), id(2));
        let mut owing = owing_of(2)?;
        for made in [a, b] {
            owing.reserve_span()?;
            owing.made(made);
        }
        for (worker, entered) in [(0, a), (0, b), (0, a), (1, b)] {
            owing.reserve_entry(worker)?;
            owing.entered(worker, entered);
        }
        owing.owe_close(0, a, 1)?;
        assert_eq!(owing.owe_close(1, a, 1), Err(Refusal::UNKNOWN));
        assert_eq!(owing.owe_close(0, id(3), 9), Err(Refusal::UNKNOWN));
        owing.owe_exit(0, a)?;
        owing.owe_exit(0, a)?;
        assert_eq!(owing.owe_exit(0, a), Err(Refusal::NOT_ENTERED));
        // Whoever owed too much took nothing from others.
        owing.owe_exit(0, b)?;
        owing.owe_close(1, b, 1)?;
        assert_eq!(owing.owe_exit(1, a), Err(Refusal::NOT_ENTERED));
        owing.owe_end(1)?;
        assert_eq!(owing.owe_exit(1, b), Err(Refusal::NOT_ENTERED));
        assert_eq!(owing.len(), 6);
        assert_eq!(owing.first(), Some(Owed::Close { worker: 0, id: a }));
        owing.done();
        owing.owe_close(0, a, 1)
    }

    #[test]
    fn to_owe_what_is_held_takes_no_memory() -> Result<(), Refusal> {
        let mut owing = owing_of(3)?;
        for number in 1..=1000 {
            owing.reserve_span()?;
            owing.made(id(number));
            owing.reserve_entry(0)?;
            owing.entered(0, id(number));
        }
        let room = owing.list.capacity();
        for number in 1..=1000 {
            owing.owe_exit(0, id(number))?;
            owing.owe_close(0, id(number), 1)?;
        }
        (0..3).try_for_each(|worker| owing.owe_end(worker))?;
        assert_eq!((owing.len(), owing.list.capacity()), (2003, room));
        Ok(())
    }
}
