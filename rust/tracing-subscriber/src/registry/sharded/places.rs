//! The data of spans, by slot.
use super::{
    raw::{Held, Shared},
    refused::{boxed, Refused},
};
use std::sync::{
    atomic::{AtomicU64, Ordering},
    OnceLock,
};

/// What is emptied when nobody reads it any longer, and filled again for another span.
pub(super) trait Clear: Default + Send + Sync {
    fn clear(&mut self);
}

/// A value with the id that it belongs to, 0 where it belongs to none. It shares no line of the processors' caches with
/// its neighbours, which other threads may have.
#[derive(Default)]
#[repr(align(128))]
struct Place<T> {
    id: AtomicU64,
    value: Shared<T>,
    // Where this one is still read under an id that ended, the slot's next span has another place.
    next: OnceLock<Box<[Place<T>; 1]>>,
}

impl<T: Clear> Place<T> {
    #[cold]
    fn next(&self) -> Result<&Place<T>, Refused> {
        if let Some(next) = self.next.get() {
            return Ok(&next[0]);
        }
        let next = boxed(Place::default())?;
        Ok(&self.next.get_or_init(|| next)[0])
    }
}

impl<T> Drop for Place<T> {
    /// One after the other, however many there are.
    fn drop(&mut self) {
        let mut next = self.next.take();
        while let Some(mut place) = next {
            next = place[0].next.take();
        }
    }
}

/// How many places the first row has, as a power of two. Each row has twice the places of the one before it.
const FIRST_ROW: u32 = 5;
/// How many rows there are, for slots below 2^24.
const ROWS: usize = 20;

#[derive(Default)]
pub(super) struct Places<T> {
    rows: [OnceLock<Box<[Place<T>]>>; ROWS],
}

impl<T: Clear> Places<T> {
    /// Fills a place for the id of a slot's new span.
    #[inline(always)]
    pub(super) fn put(&self, slot: u32, id: u64, fill: impl Fn(&mut T)) -> Result<(), Refused> {
        let (row, at) = row_of(slot);
        let mut place = match self.rows[row].get() {
            Some(row) => &row[at],
            None => &self.new_row(row)?[at],
        };
        while !place.value.fill(&fill) {
            place = place.next()?;
        }
        place.id.store(id, Ordering::Release);
        Ok(())
    }

    #[cold]
    fn new_row(&self, row: usize) -> Result<&[Place<T>], Refused> {
        let length = 1 << (FIRST_ROW as usize + row);
        let mut places = Vec::new();
        places.try_reserve_exact(length).map_err(|_| Refused::Other)?;
        places.resize_with(length, Place::default);
        Ok(self.rows[row].get_or_init(|| places.into_boxed_slice()))
    }

    #[inline]
    fn with_id(&self, slot: u32, id: u64) -> Option<&Place<T>> {
        let (row, at) = row_of(slot);
        let mut place = &self.rows[row].get()?[at];
        while place.id.load(Ordering::Acquire) != id {
            place = &place.next.get()?[0];
        }
        Some(place)
    }

    /// A hold of the value of an id, without a lock.
    #[inline]
    pub(super) fn get(&self, slot: u32, id: u64) -> Option<Held<'_, T>> {
        let place = self.with_id(slot, id)?;
        let held = place.value.hold()?;
        // It may be another span's meanwhile; then the hold is given back.
        (place.id.load(Ordering::Relaxed) == id).then_some(held)
    }

    /// Takes the id from its place, and answers the hold that it was put with.
    #[inline]
    pub(super) fn take(&self, slot: u32, id: u64) -> Option<Held<'_, T>> {
        let place = self.with_id(slot, id)?;
        place.id.store(0, Ordering::Relaxed);
        place.value.take()
    }
}

#[inline]
fn row_of(slot: u32) -> (usize, usize) {
    let number = slot + (1 << FIRST_ROW);
    let row = number.ilog2();
    ((row - FIRST_ROW) as usize, (number - (1 << row)) as usize)
}
