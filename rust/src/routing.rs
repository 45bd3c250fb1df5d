//! To which part of a registry a call goes, where its spans lie in several parts with a lock each: a thread's roots to
//! the part that is the thread's, and all else to the part that an id names. So a tree of spans lies in one part.
//!
//! Two crates have this module: this one, and the copy of tracing-subscriber, into which `rust/tracing-subscriber/lay`
//! puts it.
#![forbid(unsafe_code)]
use std::cell::Cell;
use std::sync::atomic::{AtomicU64, Ordering};

/// No thread's number.
pub(crate) const NOBODY: u64 = u64::MAX;

/// How many threads of this process have numbers.
static THREADS: AtomicU64 = AtomicU64::new(0);

thread_local! {
    // It needs no drop, so a look at it costs little, and it is there to the thread's end.
    static THREAD: Cell<u64> = const { Cell::new(NOBODY) };
}

/// The number of the calling thread, which no other thread ever has: from 0 on, in the order of the first calls.
#[inline]
pub(crate) fn thread() -> u64 {
    THREAD.with(|number| {
        if number.get() == NOBODY {
            number.set(THREADS.fetch_add(1, Ordering::Relaxed));
        }
        number.get()
    })
}

/// The part of the calling thread's roots, of so many, at least one. Threads take the parts in turn.
#[inline]
pub(crate) fn home(parts: u32) -> u32 {
    // It is below `parts`.
    (thread() % u64::from(parts)) as u32
}

/// A part's own id is generation * 2^24 + slot + 1.
pub(crate) const SLOT_BITS: u32 = 24;

/// The slot of an id, below 2^24.
#[inline]
pub(crate) const fn slot(id: u64) -> u32 {
    // Only the lowest bits are left.
    (id.wrapping_sub(1) % (1 << SLOT_BITS)) as u32
}

/// What the bits of ids are, from the lowest on: the part's own id, the part's number, and the registry's.
#[derive(Clone, Copy, Debug)]
pub(crate) struct Ids {
    own_bits: u32,
    part_bits: u32,
}

impl Ids {
    /// With so many bits for own ids and for parts; the rest are the registry's.
    pub(crate) const fn new(own_bits: u32, part_bits: u32) -> Ids {
        assert!(own_bits > SLOT_BITS && own_bits < u64::BITS);
        assert!(part_bits < u32::BITS && own_bits + part_bits <= u64::BITS);
        Ids { own_bits, part_bits }
    }

    /// How many parts have numbers.
    pub(crate) const fn parts(self) -> u32 {
        1 << self.part_bits
    }

    /// The greatest generation of a slot with which no own id has more than its bits.
    pub(crate) const fn last_generation(self) -> u32 {
        // The own id of the last slot has the next generation in its bits above the slot's.
        let last: u64 = (1 << (self.own_bits - SLOT_BITS)) - 2;
        if last < u32::MAX as u64 {
            last as u32
        } else {
            u32::MAX
        }
    }

    /// What each id of a part has above the part's own one.
    #[inline]
    pub(crate) const fn above(self, registry: u64, part: u32) -> u64 {
        ((registry << self.part_bits) | part as u64) << self.own_bits
    }

    /// The part that an id names.
    #[inline]
    pub(crate) const fn part(self, id: u64) -> u32 {
        // It is below the number of parts.
        (id >> self.own_bits) as u32 % self.parts()
    }

    /// The part that an id names and the own id there, where it is one of this registry.
    #[inline]
    pub(crate) fn route(self, registry: u64, id: u64) -> Option<(u32, u64)> {
        // Where own ids and parts have all bits, the registry's number is 0.
        let above = id.checked_shr(self.own_bits + self.part_bits).unwrap_or(0);
        (above == registry).then_some((self.part(id), id % (1 << self.own_bits)))
    }
}

#[cfg(test)]
mod tests {
    use super::{home, slot, thread, Ids, SLOT_BITS};
    use std::collections::HashSet;
    use std::thread::spawn;

    /// Those of the two crates, with the greatest number of a registry.
    const ALL: [(Ids, u64); 2] = [(Ids::new(57, 7), 0), (Ids::new(44, 6), (1 << 13) - 1)];
    const SLOTS: u64 = 1 << SLOT_BITS;

    #[test]
    fn each_id_of_each_part_comes_back() {
        for (ids, greatest) in ALL {
            let last = (u64::from(ids.last_generation()) + 1) * SLOTS;
            let mut seen = HashSet::new();
            let all = [0, 1, greatest / 2, greatest];
            for &registry in all.iter().filter(|&&number| number <= greatest) {
                for part in 0..ids.parts() {
                    for own in [1, 2, SLOTS - 1, SLOTS, SLOTS + 1, last - 1, last] {
                        let id = ids.above(registry, part) | own;
                        assert_eq!((ids.route(registry, id), ids.part(id)), (Some((part, own)), part));
                        assert_eq!(ids.route(registry ^ 1, id), None);
                        assert_eq!(slot(id), slot(own));
                        seen.insert(id);
                    }
                }
            }
            let registries = if greatest == 0 { 1 } else { 4 };
            assert_eq!(seen.len(), registries * ids.parts() as usize * 7);
        }
    }

    #[test]
    fn the_last_generation_is_the_greatest_that_fits() {
        let [(wide, _), (narrow, _)] = ALL;
        assert_eq!((wide.last_generation(), wide.parts()), (u32::MAX, 128));
        assert_eq!((narrow.last_generation(), narrow.parts()), ((1 << 20) - 2, 64));
        let id = |generation: u32, slot: u64| u64::from(generation) * SLOTS + slot + 1;
        let last_slot = SLOTS - 1;
        for (ids, _) in ALL {
            let last = ids.last_generation();
            assert!(id(last, last_slot) < ids.above(0, 1));
            if let Some(next) = last.checked_add(1) {
                assert!(id(next, last_slot) >= ids.above(0, 1));
            }
            for generation in [0, 1, last / 2, last] {
                for at in [0, 1, last_slot - 1, last_slot] {
                    assert_eq!(u64::from(slot(id(generation, at))), at);
                }
            }
        }
        assert_eq!(slot(0), last_slot as u32);
    }

    #[test]
    fn threads_have_numbers_of_their_own_and_take_the_parts_in_turn() {
        let asks = || {
            let number = thread();
            for parts in 1..=128 {
                assert_eq!(u64::from(home(parts)), number % u64::from(parts));
            }
            assert_eq!(thread(), number);
            number
        };
        let threads: Vec<_> = (0..64).map(|_| spawn(asks)).collect();
        let joined = threads.into_iter().map(|thread| thread.join().expect("no panic"));
        let numbers: HashSet<u64> = joined.collect();
        assert_eq!(numbers.len(), 64);
        assert_eq!(home(1), 0);
    }
}
