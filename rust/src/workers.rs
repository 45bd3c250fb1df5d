//! Which thread calls, which number it had last in which part of a registry, and which spans of several parts it is
//! inside of.
#![forbid(unsafe_code)]
use crate::meta::RawId;
use crate::part::{Common, Part};
use crate::refusal::Refusal;
use crate::routing::{thread, NOBODY};
use crate::seats::{Caller, NONE};
use std::cell::{Cell, RefCell};
use std::ptr;
use std::sync::Weak;

/// A part in which this thread may have a number, to be given back when it ends.
struct Place {
    part: Weak<Part>,
    registry: u64,
    // The number that it had last, or none.
    worker: u32,
}

/// A span that the thread is inside of, in a registry of several parts: each part knows only those of its own.
struct Inside {
    registry: u64,
    place: u32,
    id: RawId,
    // It has entered the span so many times, and not left it.
    times: u64,
}

/// What the thread knows of the registries that it called.
struct Places {
    // One for each part.
    parts: Vec<Place>,
    // The outermost first.
    inside: Vec<Inside>,
}

/// A call of no part: parts are numbered from 1 on.
const NO_CALL: (u64, Caller) = (
    0,
    Caller {
        thread: NOBODY,
        last: NONE,
    },
);

thread_local! {
    // The number of the part that was last called, and the thread with its worker's number there: mostly the next call
    // is the same. It needs no drop, so a look at it costs little, and it is there while the places are dropped.
    static LAST: Cell<(u64, Caller)> = const { Cell::new(NO_CALL) };
    static PLACES: RefCell<Places> = const {
        RefCell::new(Places {
            parts: Vec::new(),
            inside: Vec::new(),
        })
    };
    // The number of the registry whose lines this thread is writing.
    static WRITING: Cell<Option<u64>> = const { Cell::new(None) };
}

impl Drop for Places {
    fn drop(&mut self) {
        LAST.set(NO_CALL);
        for place in self.parts.drain(..) {
            if let Some(part) = place.part.upgrade() {
                let caller = Caller {
                    thread: thread(),
                    last: place.worker,
                };
                let _left_or_owed = part.with(|state| state.thread_ends(caller));
            }
        }
    }
}

/// The calling thread, for a call of this part.
#[inline]
pub(crate) fn caller(part: &Part) -> Caller {
    let (last, caller) = LAST.get();
    if last == part.number() {
        caller
    } else {
        looked_up(part)
    }
}

#[cold]
fn looked_up(part: &Part) -> Caller {
    let place = |places: &RefCell<Places>| {
        let places = &mut *places.borrow_mut();
        let is_this = |place: &Place| ptr::eq(place.part.as_ptr(), part);
        if let Some(place) = places.parts.iter().find(|place| is_this(place)) {
            return Some(place.worker);
        }
        places.forget_the_gone();
        places.parts.try_reserve(1).ok()?;
        places.parts.push(Place {
            part: part.weak(),
            registry: part.common().number(),
            worker: NONE,
        });
        Some(NONE)
    };
    let place = PLACES.try_with(place).ok().flatten();
    let caller = Caller {
        thread: if place.is_some() { thread() } else { NOBODY },
        last: place.unwrap_or(NONE),
    };
    if caller.last != NONE {
        LAST.set((part.number(), caller));
    }
    caller
}

/// The call was made as this worker.
pub(crate) fn called_as(part: &Part, caller: Caller, worker: u32) {
    if caller.last != worker && caller.may_own() {
        keep(part, Caller { last: worker, ..caller });
    }
}

#[cold]
fn keep(part: &Part, caller: Caller) {
    let put = |places: &RefCell<Places>| {
        let places = &mut places.borrow_mut().parts;
        let is_this = |place: &&mut Place| ptr::eq(place.part.as_ptr(), part);
        let place = places.iter_mut().find(is_this)?;
        place.worker = caller.last;
        Some(())
    };
    if PLACES.try_with(put).ok().flatten().is_some() {
        LAST.set((part.number(), caller));
    }
}

impl Places {
    // Of registries that are gone. It comes to own none, which might be the last there, and would be dropped here.
    fn forget_the_gone(&mut self) {
        self.parts.retain(|place| place.part.strong_count() > 0);
        let parts = &self.parts;
        let is_there = |inside: &Inside| parts.iter().any(|place| place.registry == inside.registry);
        self.inside.retain(is_there);
    }

    fn place_of(&self, part: &Part, id: RawId) -> Option<usize> {
        let (registry, place) = (part.common().number(), part.place());
        let is_this = |inside: &Inside| (inside.registry, inside.place, inside.id) == (registry, place, id);
        self.inside.iter().rposition(is_this)
    }
}

/// Room for one more span that the thread is inside of. While its thread locals are dropped it enters none.
pub(crate) fn reserve_entry() -> Result<(), Refusal> {
    let has_room = PLACES.try_with(|places| places.borrow_mut().inside.try_reserve(1).is_ok());
    match has_room {
        Ok(false) => Err(Refusal::OUT_OF_MEMORY),
        _ => Ok(()),
    }
}

/// The thread entered a span, for which there is room, and wasn't inside of it already where this is the first time.
pub(crate) fn entered(part: &Part, id: RawId, is_first: bool) {
    let _while_dropped = PLACES.try_with(|places| {
        let places = &mut *places.borrow_mut();
        let known = if is_first { None } else { places.place_of(part, id) };
        match known {
            Some(at) => places.inside[at].times += 1,
            None => places.inside.push(Inside {
                registry: part.common().number(),
                place: part.place(),
                id,
                times: 1,
            }),
        }
    });
}

/// The thread left an entry of a span.
pub(crate) fn left(part: &Part, id: RawId) {
    let _while_dropped = PLACES.try_with(|places| {
        let places = &mut *places.borrow_mut();
        if let Some(at) = places.place_of(part, id) {
            places.inside[at].times -= 1;
            if places.inside[at].times == 0 {
                places.inside.remove(at);
            }
        }
    });
}

/// The part of the innermost span of this registry that the thread is inside of. Entries that repeat a span count for
/// nothing.
pub(crate) fn innermost(common: &Common) -> Option<u32> {
    let innermost = |places: &RefCell<Places>| {
        let places = places.borrow();
        let mut inside = places.inside.iter().rev();
        let found = inside.find(|inside| inside.registry == common.number());
        found.map(|inside| inside.place)
    };
    PLACES.try_with(innermost).ok().flatten()
}

/// Runs `write` as the thread that writes this registry's lines, so that a call that it makes there doesn't wait for
/// itself.
pub(crate) fn writing<T>(common: &Common, write: impl FnOnce() -> T) -> T {
    struct Restore(Option<u64>);
    impl Drop for Restore {
        fn drop(&mut self) {
            WRITING.set(self.0);
        }
    }
    let _restore = Restore(WRITING.replace(Some(common.number())));
    write()
}

/// Whether this thread is writing the registry's lines.
pub(crate) fn is_writing(common: &Common) -> bool {
    WRITING.get() == Some(common.number())
}
