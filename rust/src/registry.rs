//! The registry: calls by ids, under the names of `tracing`'s `Subscriber`.
#![forbid(unsafe_code)]
use crate::at::At;
use crate::builder::RegistryBuilder;
use crate::error::Error;
use crate::level::Level;
use crate::meta::{Counts, Fields, Found, Given, Id, Meta, Parent, RawId, RawParent};
use crate::names::{named, NO_NAME};
use crate::packed::packed;
use crate::part::{wait, Part};
use crate::parts::Parts;
use crate::refusal::Refusal;
use crate::site::NO_KEY;
use crate::span::Span;
use crate::workers;
use std::fmt;
use std::sync::Arc;

/// A registry of spans. Clones are the same registry; it may be used by several threads at once.
///
/// Any number of threads may call. A thread that is inside a span has a worker's number, which lines show; it takes a
/// free one at its first call, or, to enter a span where none is free, that of the thread which is longest inside of
/// none. A thread without a number is told as one worker more, the last. So it is refused as
/// [`TooManyThreads`](Error::TooManyThreads) only where it enters a span while as many threads as there are
/// [`workers`](RegistryBuilder::workers) are inside of some, or while its thread locals are dropped. When a thread
/// ends, it leaves all spans that it is still inside of.
///
/// The methods that take an [`Id`] are for adapters; [`Registry::span`] answers a [`Span`] that gives itself back. An
/// id, a parent or a callsite of another registry is refused as [`OtherRegistry`](Error::OtherRegistry), before all
/// else.
///
/// ```
/// # fn main() -> Result<(), span_registry::Error> {
/// use span_registry::{Layer, Level, Meta, Parent, Registry};
/// let (registry, mut drain) = Registry::builder().layer(Layer::compact()).build()?;
/// {
///     let request = registry.span(&Meta::new(Level::Info, "app", "request"), Parent::Current, &[("n", "1")])?;
///     let _inside = request.enter();
///     registry.event(&Meta::event(Level::Warn, "app"), "slow", &[])?;
/// }
/// let lines: Vec<String> = std::iter::from_fn(|| drain.line()).map(|line| line.text).collect();
/// assert_eq!(lines, [
///     "new 1 w0 request n=1",
///     "enter 1 w0 request",
///     "event 1 w0 request WARN slow",
///     "exit 1 w0 request",
///     "close 1 w0 request n=1",
/// ]);
/// # Ok(())
/// # }
/// ```
#[derive(Clone)]
pub struct Registry {
    user: Arc<User>,
}

/// Registries are numbered from 1 on.
const NO_NUMBER: u64 = 0;

/// All registries that are clones of one another. When it goes, only the drain is left. It has no line of the
/// processors' caches in common with the count of its owners, which each new [`Span`] changes.
#[repr(align(128))]
struct User {
    parts: Parts,
    number: u64,
    // The same where it has one part; else no registry's.
    number_of_one: u64,
    // Its number in the process, where that has 32 bits; else none's.
    key: u32,
}

impl Drop for User {
    fn drop(&mut self) {
        self.parts.common().end();
    }
}

impl Registry {
    /// A registry with the default limits and no layer, to be changed before it is built.
    pub fn builder() -> RegistryBuilder {
        RegistryBuilder::default()
    }

    pub(crate) fn of(parts: Parts) -> Registry {
        let number = parts.common().number();
        let number_of_one = if parts.are_several() { NO_NUMBER } else { number };
        let key = u32::try_from(number).unwrap_or(NO_KEY);
        Registry {
            user: Arc::new(User {
                parts,
                number,
                number_of_one,
                key,
            }),
        }
    }

    #[inline]
    pub(crate) fn parts(&self) -> &Parts {
        &self.user.parts
    }

    /// By which it is told from all others of the process, also those that are gone.
    #[inline]
    pub(crate) fn number(&self) -> u64 {
        self.user.number
    }

    /// Of no two registries of the process the same, but for none's.
    #[inline]
    pub(crate) fn key(&self) -> u32 {
        self.user.key
    }

    /// The part of one of its ids, which other registries' are not, and its number there.
    #[inline(always)]
    pub(crate) fn own(&self, id: Id) -> Result<(At<'_>, RawId), Error> {
        match id.in_only_part(self.user.number_of_one) {
            Some(raw) => Ok((self.parts().only(), raw)),
            None => self.own_of_several(id),
        }
    }

    // Or of another registry's, which is refused.
    #[cold]
    fn own_of_several(&self, id: Id) -> Result<(At<'_>, RawId), Error> {
        let (place, raw) = id.in_registry(self.number())?;
        Ok((self.parts().at(place), raw))
    }

    /// The part of a new span or an event with this parent.
    #[inline(always)]
    pub(crate) fn own_parent(&self, parent: Parent) -> Result<(At<'_>, RawParent), Error> {
        Ok(match parent {
            Parent::Root => (self.parts().home(), RawParent::Root),
            Parent::Current => (self.parts().inside(), RawParent::Current),
            Parent::Of(id) => {
                let (at, raw) = self.own(id)?;
                (at, RawParent::Of(raw))
            }
        })
    }

    /// An id that a part of it told.
    pub(crate) fn id_of(&self, part: &Part, raw: RawId) -> Id {
        Id::of(self.number(), part.place(), raw)
    }

    /// Its id of this number; none for 0 and above 2^56, since no span ever has such an id, or, where it has several
    /// [parts](RegistryBuilder::parts), for those whose lower 57 bits are such a number, or whose higher ones are no
    /// part's. One that is no open span's is refused as [`Unknown`](Error::Unknown) where it is used.
    #[must_use]
    pub fn id(&self, number: u64) -> Option<Id> {
        Id::of_number(self.number(), number).filter(|id| id.part() < self.parts().count())
    }

    /// The number of the calling thread among the workers, which lines show; where there are several
    /// [parts](RegistryBuilder::parts), in that of its roots. It takes one where it has none and one is free.
    ///
    /// # Errors
    /// [`Backlog`](Error::Backlog) or [`OutOfMemory`](Error::OutOfMemory) where something is owed and can't be done
    /// now.
    pub fn worker(&self) -> Result<u32, Error> {
        Ok(self.parts().home().call(|state, worker| Ok(state.as_told(worker)))?)
    }

    /// Whether some layer admits spans and events of this level and target. It takes no lock and no place in the ring.
    #[must_use]
    pub fn enabled(&self, level: Level, target: &str) -> bool {
        self.parts().common().interest().admits(level, target)
    }

    /// The most verbose level that some layer admits of some target; none where nothing is admitted. It takes no lock.
    #[must_use]
    pub fn max_level(&self) -> Option<Level> {
        self.parts().common().interest().max_level()
    }

    /// A new span with its one handle; a disabled one where there are layers and none wants it.
    ///
    /// # Errors
    /// [`OtherRegistry`](Error::OtherRegistry) for the parent, [`BadName`](Error::BadName) for the name or a key,
    /// [`Unknown`](Error::Unknown) for a parent that isn't open, [`CountFull`](Error::CountFull) for the parent,
    /// [`Full`](Error::Full), [`Backlog`](Error::Backlog), [`OutOfMemory`](Error::OutOfMemory),
    /// [`BadData`](Error::BadData).
    pub fn span(&self, meta: &Meta<'_>, parent: Parent, fields: Fields<'_>) -> Result<Span, Error> {
        let made = self.made(meta, parent, fields)?;
        Ok(made.map_or_else(Span::none, |(part, id)| Span::of(self, part, id)))
    }

    /// A new span, whose one handle the caller has to give back by [`try_close`](Registry::try_close); none where
    /// there are layers and none wants it.
    ///
    /// # Errors
    /// Those of [`span`](Registry::span).
    pub fn new_span(&self, meta: &Meta<'_>, parent: Parent, fields: Fields<'_>) -> Result<Option<Id>, Error> {
        let made = self.made(meta, parent, fields)?;
        Ok(made.map(|(part, id)| self.id_of(part, id)))
    }

    fn made(&self, meta: &Meta<'_>, parent: Parent, fields: Fields<'_>) -> Result<Option<(&Part, RawId)>, Error> {
        let (at, parent) = self.own_parent(parent)?;
        let made = named(meta, &fields.into(), move |meta, given| {
            packed(&[meta.name, meta.target], given.fields, |texts| {
                at.call(move |state, worker| state.new_span(worker, meta, parent, given, texts))
            })
        })?;
        Ok(made.map(|id| (at.part, id)))
    }

    /// Puts fields at the end of a span's list. A repeated key stands twice. The values are texts: [`record!`](crate::record)
    /// keeps their kinds.
    ///
    /// # Errors
    /// [`OtherRegistry`](Error::OtherRegistry), [`BadName`](Error::BadName) for a key, [`Unknown`](Error::Unknown),
    /// [`Backlog`](Error::Backlog), [`OutOfMemory`](Error::OutOfMemory), [`BadData`](Error::BadData).
    pub fn record(&self, id: Id, fields: Fields<'_>) -> Result<(), Error> {
        self.record_given(id, &fields.into())
    }

    // What the macros make in other crates calls this, so it isn't inlined: else all that it uses, which each call looks
    // at, would have to be seen there too.
    pub(crate) fn record_given(&self, id: Id, fields: &Given<'_>) -> Result<(), Error> {
        let (at, id) = self.own(id)?;
        named(NO_NAME, fields, move |_, given| {
            packed(&[], given.fields, |texts| {
                at.call(move |state, worker| state.record(worker, id, given, texts))
            })
        })
    }

    /// Tells an event. Each layer that admits it sees it in the innermost span that the thread is inside of and the
    /// layer admits. It is accepted also where no layer admits it.
    ///
    /// # Errors
    /// [`BadName`](Error::BadName) for the name or a key, [`Backlog`](Error::Backlog),
    /// [`OutOfMemory`](Error::OutOfMemory), [`BadData`](Error::BadData).
    pub fn event(&self, meta: &Meta<'_>, message: &str, fields: Fields<'_>) -> Result<(), Error> {
        self.event_in(meta, Parent::Current, message, fields)
    }

    /// Tells an event under a parent of its own, which isn't held for it: each layer that admits the event sees it in
    /// that span, or, where the layer doesn't admit the span or there is none, in no span. With
    /// [`Current`](Parent::Current) it is [`event`](Registry::event).
    ///
    /// # Errors
    /// Those of [`event`](Registry::event), and of the parent [`OtherRegistry`](Error::OtherRegistry) and
    /// [`Unknown`](Error::Unknown).
    ///
    /// ```
    /// # fn main() -> Result<(), span_registry::Error> {
    /// # let (registry, mut drain) = span_registry::Registry::builder()
    /// #     .layer(span_registry::Layer::compact()).build()?;
    /// use span_registry::{Level, Meta, Parent};
    /// let request = registry.span(&Meta::new(Level::Info, "app", "request"), Parent::Root, &[])?;
    /// registry.event_in(&Meta::event(Level::Info, "app"), Parent::from(&request), "queued", &[])?;
    /// # let lines: Vec<String> = drain.lines().map(|line| line.text).collect();
    /// # assert_eq!(lines, ["new 1 w0 request", "event 1 w0 request INFO queued"]);
    /// # Ok(())
    /// # }
    /// ```
    pub fn event_in(&self, meta: &Meta<'_>, parent: Parent, message: &str, fields: Fields<'_>) -> Result<(), Error> {
        let (at, parent) = self.own_parent(parent)?;
        named(meta, &fields.into(), move |meta, given| {
            packed(&[meta.name, meta.target, message], given.fields, |texts| {
                at.call(move |state, worker| state.event(worker, meta, parent, message, given, texts))
            })
        })
    }

    /// The calling thread enters a span. True where it wasn't inside of it already: only such an entry holds the span.
    ///
    /// # Errors
    /// [`OtherRegistry`](Error::OtherRegistry), [`TooManyThreads`](Error::TooManyThreads),
    /// [`Unknown`](Error::Unknown), [`CountFull`](Error::CountFull), [`Backlog`](Error::Backlog),
    /// [`OutOfMemory`](Error::OutOfMemory).
    pub fn enter(&self, id: Id) -> Result<bool, Error> {
        let (at, id) = self.own(id)?;
        let (is_first, _) = at.enter(id)?;
        Ok(is_first)
    }

    /// The calling thread leaves its topmost entry of a span. True where the span closed.
    ///
    /// # Errors
    /// [`OtherRegistry`](Error::OtherRegistry), [`Unknown`](Error::Unknown), [`NotEntered`](Error::NotEntered),
    /// [`Backlog`](Error::Backlog), [`OutOfMemory`](Error::OutOfMemory).
    pub fn exit(&self, id: Id) -> Result<bool, Error> {
        let (at, id) = self.own(id)?;
        Ok(at.exit(id)?)
    }

    /// One more handle of a span, which the caller has to give back by [`try_close`](Registry::try_close).
    ///
    /// # Errors
    /// [`OtherRegistry`](Error::OtherRegistry), [`Unknown`](Error::Unknown), [`CountFull`](Error::CountFull),
    /// [`Backlog`](Error::Backlog), [`OutOfMemory`](Error::OutOfMemory).
    pub fn clone_span(&self, id: Id) -> Result<(), Error> {
        let (at, id) = self.own(id)?;
        Ok(at.call(move |state, worker| state.clone_span(worker, id))?)
    }

    /// Gives a handle of a span back. True where the span closed: nothing else holds it.
    ///
    /// # Errors
    /// [`OtherRegistry`](Error::OtherRegistry), [`Unknown`](Error::Unknown) also where no handle of it is out,
    /// [`Backlog`](Error::Backlog), [`OutOfMemory`](Error::OutOfMemory).
    pub fn try_close(&self, id: Id) -> Result<bool, Error> {
        let (at, id) = self.own(id)?;
        Ok(at.call(move |state, worker| state.try_close(worker, id))?)
    }

    /// [`exit`](Registry::exit) for callers that can't make it again: what can't be done now is owed, as where a guard
    /// is dropped.
    ///
    /// # Errors
    /// [`OtherRegistry`](Error::OtherRegistry), [`Unknown`](Error::Unknown), [`NotEntered`](Error::NotEntered) where
    /// the thread has no entry of the span whose exit isn't owed already: so no more is owed than is held.
    pub fn exit_or_owe(&self, id: Id) -> Result<(), Error> {
        let (at, id) = self.own(id)?;
        let caller = workers::caller(at.part);
        Ok(at.part.with(|state| {
            let worker = state.worker_of(caller).ok_or(Refusal::NOT_ENTERED)?;
            state.exit_or_owe(worker, id).map(|()| at.left(id))
        })?)
    }

    /// [`try_close`](Registry::try_close) for callers that can't make it again: what can't be done now is owed, as
    /// where a [`Span`] is dropped. A thread takes no number for it.
    ///
    /// # Errors
    /// [`OtherRegistry`](Error::OtherRegistry), [`Unknown`](Error::Unknown) where the span has no handle whose close
    /// isn't owed already: so no more is owed than is held.
    pub fn close_or_owe(&self, id: Id) -> Result<(), Error> {
        let (at, id) = self.own(id)?;
        Ok(at.close_or_owe(id)?)
    }

    /// The innermost span that the calling thread is inside of; entries that repeat a span are skipped. After entering
    /// a, b and a again it is b.
    ///
    /// # Errors
    /// [`Backlog`](Error::Backlog) or [`OutOfMemory`](Error::OutOfMemory) where something is owed and can't be done
    /// now.
    pub fn current_span(&self) -> Result<Option<Id>, Error> {
        let at = self.parts().inside();
        at.before()?;
        let current = at.part.until_placed(|| {
            let caller = workers::caller(at.part);
            at.part.with(|state| {
                state.settle()?;
                let worker = state.worker_of(caller);
                worker.map_or(Ok(None), |worker| state.current_span(worker))
            })
        })?;
        Ok(current.map(|raw| self.id_of(at.part, raw)))
    }

    /// An open span; none where no span of this registry is open with the id. What is owed and can't be done now
    /// counts as not done. [`open_span`](Registry::open_span) tells its name and its fields too.
    #[must_use]
    pub fn find(&self, id: Id) -> Option<Found> {
        let (at, id) = self.own(id).ok()?;
        let found = at.part.settled(|state| state.find(id))?;
        Some(Found {
            parent: RawId::from_u64(found.parent).map(|raw| self.id_of(at.part, raw)),
            handles: found.handles,
            entries: found.entries,
            count: found.count,
            level: Level::of_verbosity(found.level)?,
        })
    }

    /// What happened so far, and what is held and owed now.
    #[must_use]
    pub fn counts(&self) -> Counts {
        self.parts().counts()
    }

    /// Does what dropped guards, dropped spans and ended threads left to be done, in order. Each call on spans does this
    /// first.
    ///
    /// # Errors
    /// [`Backlog`](Error::Backlog) or [`OutOfMemory`](Error::OutOfMemory) where some of it can't be done now; that
    /// stays owed.
    pub fn settle(&self) -> Result<(), Error> {
        Ok(self.parts().settle()?)
    }
}

impl fmt::Debug for Registry {
    fn fmt(&self, f: &mut fmt::Formatter<'_>) -> fmt::Result {
        f.debug_struct("Registry").field("counts", &self.counts()).finish()
    }
}

/// Makes a call again, as long as it is refused as [`Backlog`](Error::Backlog), and lets other threads run in between.
/// It doesn't come back while the [`Drain`](crate::Drain) is there and nobody reads it, so the thread that reads must
/// not wait by this. A registry that was built with [`OnFull::Wait`](crate::OnFull) waits by itself.
///
/// # Errors
/// Whatever else the call answers.
///
/// ```
/// # fn main() -> Result<(), span_registry::Error> {
/// # let (registry, _drain) = span_registry::Registry::builder().build()?;
/// use span_registry::{retry, Level, Meta};
/// retry(|| registry.event(&Meta::event(Level::Info, "app"), "started", &[]))?;
/// # Ok(())
/// # }
/// ```
pub fn retry<T>(mut call: impl FnMut() -> Result<T, Error>) -> Result<T, Error> {
    let mut turn: u32 = 0;
    loop {
        match call() {
            Err(Error::Backlog) => wait(turn),
            result => return result,
        }
        turn = turn.saturating_add(1);
    }
}
