//! The part that a call goes to, and what is done there for calls of it.
#![forbid(unsafe_code)]
use crate::meta::RawId;
use crate::part::{Calling, Part};
use crate::parts::Parts;
use crate::refusal::Refusal;
use crate::state::State;
use crate::workers;

/// The part that a call goes to. Whether it is one of several is looked at once.
#[derive(Clone, Copy)]
pub(crate) struct At<'a> {
    pub(crate) part: &'a Part,
    // All of them, where they are several.
    several: Option<&'a Parts>,
}

impl<'a> At<'a> {
    /// The only part of its registry.
    #[inline(always)]
    pub(crate) fn only(part: &'a Part) -> At<'a> {
        At { part, several: None }
    }

    /// That of this place among several.
    pub(crate) fn one_of(parts: &'a Parts, place: u32) -> At<'a> {
        At {
            part: parts.part(place),
            several: Some(parts),
        }
    }

    /// What is done before the call: what other parts owe, which the call doesn't do itself.
    #[inline(always)]
    pub(crate) fn before(self) -> Result<(), Refusal> {
        match self.several {
            Some(parts) => parts.settle_others(self.part),
            None => Ok(()),
        }
    }

    /// A call as the worker whose number the thread has there.
    #[inline(always)]
    pub(crate) fn call<T>(self, call: impl Calling<T>) -> Result<T, Refusal> {
        self.before()?;
        self.part.call(State::number, call)
    }

    /// The thread enters a span: whether it wasn't inside of it already, and as which worker it entered. Each way has
    /// a copy of its own.
    #[inline(always)]
    pub(crate) fn enter(self, id: RawId) -> Result<(bool, u32), Refusal> {
        if self.several.is_some() {
            return self.enter_one_of_several(id);
        }
        let enter = move |state: &mut State, worker| Ok((state.enter(worker, id)?, worker));
        self.part.call(State::number_to_enter, enter)
    }

    #[inline(never)]
    fn enter_one_of_several(self, id: RawId) -> Result<(bool, u32), Refusal> {
        workers::reserve_entry()?;
        self.before()?;
        let enter = move |state: &mut State, worker| {
            let is_first = state.enter(worker, id)?;
            workers::entered(self.part, id, is_first);
            Ok((is_first, worker))
        };
        self.part.call(State::number_to_enter, enter)
    }

    /// The thread leaves its topmost entry of a span. Whether the span closed.
    #[inline(always)]
    pub(crate) fn exit(self, id: RawId) -> Result<bool, Refusal> {
        if self.several.is_some() {
            return self.exit_one_of_several(id);
        }
        self.part
            .call(State::number, move |state, worker| state.exit(worker, id))
    }

    #[inline(never)]
    fn exit_one_of_several(self, id: RawId) -> Result<bool, Refusal> {
        self.call(move |state, worker| {
            let closed = state.exit(worker, id)?;
            self.left(id);
            Ok(closed)
        })
    }

    /// The thread left an entry of a span, or owes that. It is said under the lock: what is dropped after that because
    /// the span closed may ask where the thread is inside.
    #[inline(always)]
    pub(crate) fn left(self, id: RawId) {
        if self.several.is_some() {
            workers::left(self.part, id);
        }
    }

    /// The thread leaves an entry of a span, now or as it is owed, as this worker, if it still has that number: else it
    /// has left all spans.
    pub(crate) fn exit_or_owe(self, id: RawId, worker: u32) -> Result<(), Refusal> {
        let caller = workers::caller(self.part);
        self.part.with(|state| {
            if state.worker_of(caller) == Some(worker) {
                state.exit_or_owe(worker, id)?;
            }
            self.left(id);
            Ok(())
        })
    }

    /// Gives a handle back, now or as it is owed. The thread takes no number for it.
    pub(crate) fn close_or_owe(self, id: RawId) -> Result<(), Refusal> {
        let caller = workers::caller(self.part);
        self.part.with(|state| {
            let worker = state.worker_or_outsider(caller);
            state.close_or_owe(worker, id)
        })
    }
}
