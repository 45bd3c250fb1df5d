//! Handles of spans that give themselves back, and guards of entered spans.
#![forbid(unsafe_code)]
use crate::at::At;
use crate::error::Error;
use crate::extensions::Extensions;
use crate::meta::{Fields, Id, RawId};
use crate::part::Part;
use crate::registry::Registry;
use std::fmt;
use std::hash::{Hash, Hasher};
use std::marker::PhantomData;
use std::mem;
use std::ops::Deref;
use std::sync::Arc;

/// A handle of a span, which gives itself back when it is dropped: no span is leaked, and none is closed twice.
///
/// **Clones.** `clone()` shares the handle: it never fails, makes no call of the registry, and the handle is given
/// back when the last clone is dropped. [`try_clone`](Span::try_clone) makes a handle of its own, which the registry
/// counts, and may be refused.
///
/// **Disabled spans.** Where there are layers and none wants a span, it isn't made. Its `Span` is disabled: it has no
/// id, and all that is done with it succeeds and does nothing.
///
/// **Methods that answer no error**, as [`enter`](Span::enter), do nothing where they are refused, and
/// [`Registry::lost`] counts that; those that begin with `try_` answer why.
///
/// **Drops can't be refused.** Where a dropped `Span`, or a dropped guard of [`enter`](Span::enter), finds the ring
/// full or is refused memory, what it has to do is *owed*: it is kept in order, and done before the next call of any
/// thread, by [`Registry::settle`], or by the [`Drain`](crate::Drain) once it has made place, whichever is first.
/// While something owed can't be done, ordinary calls are refused as [`Backlog`](Error::Backlog) or
/// [`OutOfMemory`](Error::OutOfMemory), so that nothing overtakes it. To owe takes no memory: room for it is made when
/// a handle or an entry is.
///
/// Handles of the same span are equal, and so are disabled ones.
///
/// It may be sent to other threads and dropped there. The thread that drops the last clone is told in the lines as the
/// worker that closed the span.
#[derive(Clone, Default)]
pub struct Span(Option<Arc<Handle>>);

/// The one handle that clones share.
struct Handle {
    registry: Registry,
    // Of the part of that registry.
    id: RawId,
    part: u32,
    is_given_back: bool,
}

impl Span {
    /// A disabled span.
    #[must_use]
    pub fn none() -> Span {
        Span(None)
    }

    pub(crate) fn of(registry: &Registry, part: &Part, id: RawId) -> Span {
        Span(Some(Arc::new(Handle {
            registry: registry.clone(),
            id,
            part: part.place(),
            is_given_back: false,
        })))
    }

    /// Its id; none where it is disabled.
    #[must_use]
    pub fn id(&self) -> Option<Id> {
        self.0.as_ref().map(|handle| handle.id())
    }

    /// Whether no layer wanted it, or it was [lost](Registry::lost).
    #[must_use]
    pub fn is_disabled(&self) -> bool {
        self.0.is_none()
    }

    /// The thread enters the span, and leaves it when the guard is dropped, also while it panics.
    ///
    /// A guard that is forgotten leaves the thread inside until it ends.
    pub fn enter(&self) -> Entered<'_> {
        Entered::of(self.or_lost(Handle::inside))
    }

    /// [`enter`](Span::enter), or why it is refused.
    ///
    /// # Errors
    /// Those of [`Registry::enter`].
    pub fn try_enter(&self) -> Result<Entered<'_>, Error> {
        self.0.as_deref().map(Handle::inside).transpose().map(Entered::of)
    }

    /// [`enter`](Span::enter) by a guard that owns the handle, for where there is nothing to borrow it from.
    ///
    /// ```
    /// # fn main() -> Result<(), span_registry::Error> {
    /// # let (registry, mut drain) = span_registry::Registry::builder()
    /// #     .layer(span_registry::Layer::compact()).build()?;
    /// use span_registry::{span, Level};
    /// let inside = span!(registry, Level::Info, "request").entered();
    /// inside.record(&[("user", "7")]);
    /// let request = inside.exit();
    /// # drop(request);
    /// # let lines: Vec<String> = drain.lines().map(|line| line.text).collect();
    /// # let wanted = ["new", "enter", "record", "exit", "close"];
    /// # assert!(lines.len() == 5 && lines.iter().zip(wanted).all(|(line, kind)| line.starts_with(kind)), "{lines:?}");
    /// # Ok(())
    /// # }
    /// ```
    pub fn entered(self) -> EnteredSpan {
        let entry = self.or_lost(Handle::enter);
        EnteredSpan::of(self, entry)
    }

    /// [`entered`](Span::entered), or why it is refused.
    ///
    /// # Errors
    /// Those of [`Registry::enter`], with the span.
    pub fn try_entered(self) -> Result<EnteredSpan, (Span, Error)> {
        match self.0.as_deref().map(Handle::enter).transpose() {
            Ok(entry) => Ok(EnteredSpan::of(self, entry)),
            Err(error) => Err((self, error)),
        }
    }

    /// Runs `run` inside the span; outside of it where the entry is refused.
    pub fn in_scope<T>(&self, run: impl FnOnce() -> T) -> T {
        let _inside = self.enter();
        run()
    }

    /// Runs `run` inside the span. Where the entry is refused, it doesn't run.
    ///
    /// # Errors
    /// Those of [`Registry::enter`]; then `run` doesn't run.
    pub fn try_in_scope<T>(&self, run: impl FnOnce() -> T) -> Result<T, Error> {
        let _inside = self.try_enter()?;
        Ok(run())
    }

    /// Puts fields at the end of the span's list. A repeated key stands twice. The values are texts:
    /// [`record!`](crate::record) keeps their kinds.
    pub fn record(&self, fields: Fields<'_>) -> &Span {
        self.or_lost(|handle| handle.record(fields));
        self
    }

    /// [`record`](Span::record), or why it is refused.
    ///
    /// # Errors
    /// Those of [`Registry::record`].
    pub fn try_record(&self, fields: Fields<'_>) -> Result<(), Error> {
        self.0.as_deref().map_or(Ok(()), |handle| handle.record(fields))
    }

    /// Tells that the span follows from another one, given as an id or as `&other`
    /// ([`Registry::follows_from`]). Where either is disabled, nothing is told.
    ///
    /// ```
    /// # fn main() -> Result<(), span_registry::Error> {
    /// # let (registry, mut drain) = span_registry::Registry::builder()
    /// #     .layer(span_registry::Layer::compact()).build()?;
    /// use span_registry::{span, Level};
    /// let ask = span!(registry, Level::Info, "ask");
    /// let answer = span!(registry, Level::Info, "answer");
    /// answer.follows_from(&ask);
    /// # let lines: Vec<String> = drain.lines().map(|line| line.text).collect();
    /// # assert_eq!(lines[2], "record 2 w0 answer follows_from=1");
    /// # Ok(())
    /// # }
    /// ```
    pub fn follows_from(&self, other: impl Into<Option<Id>>) -> &Span {
        if let Some(other) = other.into() {
            self.or_lost(|handle| handle.registry.follows_from(handle.id(), other));
        }
        self
    }

    /// [`follows_from`](Span::follows_from), or why it is refused.
    ///
    /// # Errors
    /// Those of [`Registry::follows_from`].
    pub fn try_follows_from(&self, other: impl Into<Option<Id>>) -> Result<(), Error> {
        match (&self.0, other.into()) {
            (Some(handle), Some(other)) => handle.registry.follows_from(handle.id(), other),
            _ => Ok(()),
        }
    }

    /// What the span carries of the program's own.
    #[must_use]
    pub fn extensions(&self) -> Extensions<'_> {
        Extensions::of(self.own())
    }

    /// Its registry and its id there; none where it is disabled.
    pub(crate) fn own(&self) -> Option<(&Registry, Id)> {
        self.0.as_deref().map(|handle| (&handle.registry, handle.id()))
    }

    // None of a disabled span, and where it is refused.
    fn or_lost<'a, T>(&'a self, call: impl FnOnce(&'a Handle) -> Result<T, Error>) -> Option<T> {
        let handle = self.0.as_deref()?;
        handle.registry.or_lost(call(handle))
    }

    /// A handle of its own of the same span.
    ///
    /// # Errors
    /// Those of [`Registry::clone_span`].
    pub fn try_clone(&self) -> Result<Span, Error> {
        let Some(handle) = &self.0 else {
            return Ok(Span::none());
        };
        handle.registry.clone_span(handle.id())?;
        Ok(Span::of(&handle.registry, handle.at().part, handle.id))
    }

    /// Gives the handle back, as a drop does, and tells whether the span closed. False where other clones share it.
    ///
    /// # Errors
    /// Those of [`Registry::try_close`], with the span; with a disabled one where it is [`Unknown`](Error::Unknown),
    /// since somebody gave this handle back by its id.
    pub fn try_close(self) -> Result<bool, (Span, Error)> {
        let Some(mut handle) = self.0.and_then(Arc::into_inner) else {
            return Ok(false);
        };
        match handle.registry.try_close(handle.id()) {
            Err(error) if error != Error::Unknown => Err((Span(Some(Arc::new(handle))), error)),
            result => {
                handle.is_given_back = true;
                result.map_err(|error| (Span::none(), error))
            }
        }
    }
}

impl Handle {
    #[inline(always)]
    fn at(&self) -> At<'_> {
        self.registry.parts().at(self.part)
    }

    fn id(&self) -> Id {
        self.registry.id_of(self.at().part, self.id)
    }

    fn enter(&self) -> Result<Entry, Error> {
        let (is_first, worker) = self.at().enter(self.id)?;
        Ok(Entry { worker, is_first })
    }

    fn inside(&self) -> Result<(&Handle, Entry), Error> {
        Ok((self, self.enter()?))
    }

    fn leave(&self, entry: Entry) {
        // Refused is only what somebody left by its id.
        let _left_or_owed = self.at().exit_or_owe(self.id, entry.worker);
    }

    fn record(&self, fields: Fields<'_>) -> Result<(), Error> {
        self.registry.record_given(self.id(), &fields.into())
    }
}

impl Drop for Handle {
    fn drop(&mut self) {
        if !self.is_given_back {
            // Refused is only what somebody gave back by its id.
            let _closed_or_owed = self.at().close_or_owe(self.id);
        }
    }
}

impl PartialEq for Span {
    fn eq(&self, other: &Span) -> bool {
        self.id() == other.id()
    }
}

impl Eq for Span {}

impl Hash for Span {
    fn hash<H: Hasher>(&self, state: &mut H) {
        self.id().hash(state);
    }
}

impl fmt::Debug for Span {
    fn fmt(&self, f: &mut fmt::Formatter<'_>) -> fmt::Result {
        f.debug_tuple("Span").field(&self.id().map(Id::into_u64)).finish()
    }
}

/// The thread is inside the span until this is dropped. What can't be done then is owed: see [`Span`]. A program in which
/// another thread gets it, or which drops or moves its span before, doesn't compile.
///
/// Guards may be dropped in any order: each takes the topmost entry of its span out.
#[must_use = "the span is left at once where its guard is dropped"]
pub struct Entered<'a> {
    inside: Option<(&'a Handle, Entry)>,
    stays_on_its_thread: PhantomData<*const ()>,
}

#[derive(Clone, Copy)]
struct Entry {
    worker: u32,
    is_first: bool,
}

impl<'a> Entered<'a> {
    // None where the span is disabled or the entry was lost: then it does nothing.
    fn of(inside: Option<(&'a Handle, Entry)>) -> Entered<'a> {
        Entered {
            inside,
            stays_on_its_thread: PhantomData,
        }
    }

    /// Whether the thread wasn't inside of the span already. False of a disabled span, and where the entry was lost.
    #[must_use]
    pub fn is_first(&self) -> bool {
        self.inside.is_some_and(|(_, entry)| entry.is_first)
    }
}

impl Drop for Entered<'_> {
    fn drop(&mut self) {
        if let Some((handle, entry)) = self.inside {
            handle.leave(entry);
        }
    }
}

impl fmt::Debug for Entered<'_> {
    fn fmt(&self, f: &mut fmt::Formatter<'_>) -> fmt::Result {
        let id = self.inside.map(|(handle, _)| handle.id().into_u64());
        f.debug_tuple("Entered").field(&id).finish()
    }
}

/// The thread is inside the span until this is dropped, and then its handle is. Otherwise it is as [`Entered`], and
/// what a [`Span`] can be asked it can.
#[must_use = "the span is left at once where its guard is dropped"]
pub struct EnteredSpan {
    span: Span,
    // As of `Entered`.
    entry: Option<Entry>,
    stays_on_its_thread: PhantomData<*const ()>,
}

impl EnteredSpan {
    fn of(span: Span, entry: Option<Entry>) -> EnteredSpan {
        EnteredSpan {
            span,
            entry,
            stays_on_its_thread: PhantomData,
        }
    }

    /// As [`Entered::is_first`].
    #[must_use]
    pub fn is_first(&self) -> bool {
        self.entry.is_some_and(|entry| entry.is_first)
    }

    /// The thread leaves the span, as by a drop, which the caller gets again.
    #[must_use = "the handle is given back where it is dropped"]
    pub fn exit(mut self) -> Span {
        self.leave();
        mem::take(&mut self.span)
    }

    fn leave(&mut self) {
        if let (Some(handle), Some(entry)) = (&self.span.0, self.entry.take()) {
            handle.leave(entry);
        }
    }
}

impl Deref for EnteredSpan {
    type Target = Span;

    fn deref(&self) -> &Span {
        &self.span
    }
}

impl Drop for EnteredSpan {
    fn drop(&mut self) {
        self.leave();
    }
}

impl fmt::Debug for EnteredSpan {
    fn fmt(&self, f: &mut fmt::Formatter<'_>) -> fmt::Result {
        let entry = self.entry.and(self.span.id()).map(Id::into_u64);
        f.debug_tuple("EnteredSpan").field(&entry).finish()
    }
}
