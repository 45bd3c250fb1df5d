//! Stamps of a part's batches, by which the lines of several parts are merged.
//!
//! A call takes its stamp under its part's lock, before its batch goes into the ring. So the stamps of a part rise with
//! its batches, and a call that begins after another one ended, in whatever part, has the greater stamp. One that sends
//! no batch takes a stamp too, which none has.
#![forbid(unsafe_code)]
use crate::meta::RawId;
use crate::raw::Closed;
use crate::refusal::Refusal;
use std::hint;
use std::sync::atomic::{AtomicU64, Ordering};
use std::sync::Arc;

/// No call is being made.
const NONE: u64 = u64::MAX;
/// How often it is looked whether a call has ended, before its part's lock is waited for.
const LOOKS: u32 = 100;

/// Where the stamps of all parts come from. It has its own line of the processors' caches.
#[derive(Default)]
#[repr(align(128))]
pub(crate) struct Clock(AtomicU64);

impl Clock {
    fn next(&self) -> u64 {
        self.0.fetch_add(1, Ordering::AcqRel)
    }
}

/// What an accepted call put into the ring.
#[derive(Clone, Copy, Debug, PartialEq, Eq)]
pub(crate) enum Sent {
    Nothing,
    Batch,
    /// The batch of this new span.
    Span(RawId),
}

/// What an accepted call answers.
pub(crate) trait Answer {
    fn sent(&self) -> Sent {
        Sent::Batch
    }
}

impl Answer for () {}
impl Answer for bool {}
impl Answer for Closed {}

/// Of a new span. One that no layer wants isn't made.
impl Answer for Option<RawId> {
    fn sent(&self) -> Sent {
        self.map_or(Sent::Nothing, Sent::Span)
    }
}

/// Those of one part, which have their own lines too: who reads the ring writes to others.
#[repr(align(128))]
pub(crate) struct Stamps {
    clock: Arc<Clock>,
    // A stamp that isn't greater than that of the call which is being made, or NONE.
    begun: AtomicU64,
    // How many batches went into the ring. Only who has the part's lock changes it.
    sent: AtomicU64,
    // The stamps of the last batches, by their numbers: of as many as the ring has places for, of the one that was
    // taken out last, and of the one that is being made.
    places: Box<[AtomicU64]>,
}

impl Stamps {
    /// Of a part whose ring has so many places.
    pub(crate) fn new(clock: Arc<Clock>, ring: u32) -> Result<Stamps, Refusal> {
        let count = (ring as usize + 2).next_power_of_two();
        let mut places = Vec::new();
        places.try_reserve_exact(count).map_err(|_| Refusal::OUT_OF_MEMORY)?;
        places.resize_with(count, AtomicU64::default);
        Ok(Stamps {
            clock,
            begun: AtomicU64::new(NONE),
            sent: AtomicU64::new(0),
            places: places.into_boxed_slice(),
        })
    }

    fn place(&self, batch: u64) -> &AtomicU64 {
        // There is a power of two of them.
        &self.places[batch as usize & (self.places.len() - 1)]
    }

    /// A call is made that may put a batch into the ring. For who has the part's lock, until the call has ended.
    pub(crate) fn begin(&self) {
        // It is seen by whoever sees the clock go on below.
        self.begun
            .store(self.clock.0.load(Ordering::Relaxed), Ordering::Relaxed);
        let stamp = self.clock.next();
        let batch = self.sent.load(Ordering::Relaxed) + 1;
        self.place(batch).store(stamp, Ordering::Release);
    }

    /// The call has ended, and did so or not.
    pub(crate) fn end(&self, has_sent: bool) {
        if has_sent {
            self.sent
                .store(self.sent.load(Ordering::Relaxed) + 1, Ordering::Relaxed);
        }
        self.begun.store(NONE, Ordering::Release);
    }

    /// How many batches went into the ring. For who has the part's lock.
    pub(crate) fn sent(&self) -> u64 {
        self.sent.load(Ordering::Relaxed)
    }

    /// That of the batch that was taken out of the ring last. For who has the lock of the ring.
    pub(crate) fn of(&self, batch: u64) -> u64 {
        self.place(batch).load(Ordering::Acquire)
    }

    /// No batch has a lesser stamp but those that are in the ring when this has answered.
    pub(crate) fn bound(&self) -> u64 {
        // In this order: whoever took a lesser stamp than the clock's said before that it begins.
        let now = self.clock.0.load(Ordering::Acquire);
        now.min(self.begun.load(Ordering::Acquire))
    }

    /// Whether the bound is greater than a stamp that was taken, or comes to be so soon.
    pub(crate) fn passes(&self, stamp: u64) -> bool {
        (0..LOOKS).any(|_| {
            let passes = self.bound() > stamp;
            if !passes {
                hint::spin_loop();
            }
            passes
        })
    }
}

#[cfg(test)]
mod tests {
    use super::{Answer, Clock, Sent, Stamps};
    use crate::meta::RawId;
    use crate::refusal::Refusal;
    use std::sync::Arc;

    fn call(stamps: &Stamps, has_sent: bool) {
        stamps.begin();
        stamps.end(has_sent);
    }

    #[test]
    fn batches_have_rising_stamps_and_what_sends_none_has_none() -> Result<(), Refusal> {
        let clock = Arc::new(Clock::default());
        let (one, other) = (Stamps::new(Arc::clone(&clock), 3)?, Stamps::new(clock, 3)?);
        call(&one, true);
        call(&other, true);
        call(&one, false);
        call(&one, true);
        assert_eq!((one.sent(), one.of(1), one.of(2)), (2, 0, 3));
        assert_eq!((other.sent(), other.of(1)), (1, 1));
        assert_eq!((one.bound(), other.bound()), (4, 4));
        assert_eq!([true.sent(), false.sent(), ().sent()], [Sent::Batch; 3]);
        assert_eq!(None::<RawId>.sent(), Sent::Nothing);
        assert_eq!(
            RawId::from_u64(7).map(|id| Some(id).sent() == Sent::Span(id)),
            Some(true)
        );
        Ok(())
    }

    #[test]
    fn a_call_that_is_being_made_bounds_what_may_come() -> Result<(), Refusal> {
        let clock = Arc::new(Clock::default());
        let (one, other) = (Stamps::new(Arc::clone(&clock), 1)?, Stamps::new(clock, 1)?);
        one.begin();
        call(&other, true);
        assert_eq!((one.bound(), other.bound()), (0, 2));
        assert!(!one.passes(0) && other.passes(1));
        one.end(true);
        assert!(one.passes(1));
        Ok(())
    }
}
