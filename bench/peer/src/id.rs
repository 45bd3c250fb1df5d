//! The numbers that name spans.
use std::num::NonZeroU64;

/// How many slots the layout of ids has.
pub const MOST_SLOTS: u32 = 1 << SLOT_BITS;

const SLOT_BITS: u32 = 24;
const OLDER_SLOT_BITS: u32 = 16;
const LAST: u64 = 1 << 56;
const LAST_OLDER: u64 = 1 << 32;

/// The id of a span: its slot and that slot's generation in one number, which is never 0.
#[derive(Clone, Copy, Debug, PartialEq, Eq)]
pub struct Id(NonZeroU64);

impl Id {
    pub fn new(slot: u32, generation: u32) -> Id {
        let below = u64::from(generation) << SLOT_BITS | u64::from(slot);
        Id(NonZeroU64::MIN.saturating_add(below))
    }

    /// The id of a number of the layout.
    pub fn from_number(number: u64) -> Option<Id> {
        (number <= LAST).then_some(Id(NonZeroU64::new(number)?))
    }

    /// The id with the slot and the generation that a number of the older layout has.
    pub fn from_older(number: u64) -> Option<Id> {
        if !(1..=LAST_OLDER).contains(&number) {
            return None;
        }
        let below = number - 1;
        let slot = below & ((1 << OLDER_SLOT_BITS) - 1);
        Some(Id::new(slot as u32, (below >> OLDER_SLOT_BITS) as u32))
    }

    pub fn get(self) -> u64 {
        self.0.get()
    }

    pub fn slot(self) -> u32 {
        ((self.get() - 1) & u64::from(MOST_SLOTS - 1)) as u32
    }

    pub fn generation(self) -> u32 {
        ((self.get() - 1) >> SLOT_BITS) as u32
    }
}
