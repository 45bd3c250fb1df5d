//! The calls of `tracing`, each as the calls of the package that it is.
#![forbid(unsafe_code)]
use crate::builder::SubscriberBuilder;
use crate::fields::Fields;
use crate::lost::{Losses, Lost};
use crate::places::{level_of, level_there, numbered, place, record, Place};
use span_registry::{Error, Kind, Parent, Registry, Span};
use std::cell::RefCell;
use std::fmt;
use std::sync::atomic::{AtomicU64, Ordering};
use std::sync::Arc;
use tracing_core::span::{Attributes, Current, Id, Record};
use tracing_core::{Event, Interest, LevelFilter, Metadata, Subscriber};

/// What `tracing` is told as the id of a span that wasn't made. The registry never gives it.
const NONE: u64 = u64::MAX;

/// A subscriber of `tracing` that writes lines, all the way over the proved registry. Clones are the same one.
///
/// ```
/// use span_registry::Layer;
/// use tracing_span_registry::ProvedSubscriber;
/// # fn main() -> Result<(), Box<dyn std::error::Error>> {
/// let layer = Layer::json().with_targets("info".parse()?);
/// let (subscriber, guard) = ProvedSubscriber::builder().layer(layer).init(std::io::stdout())?;
/// tracing::info_span!("GET /users", rows = 3).in_scope(|| tracing::info!("read"));
/// print!("{}", subscriber.registry().open_spans()?);
/// assert_eq!(guard.finish()?, 5);
/// # Ok(())
/// # }
/// ```
///
/// No call panics and none answers an error: what is refused is counted by [`lost`](ProvedSubscriber::lost). The
/// crate's README has what each call becomes.
#[derive(Clone)]
pub struct ProvedSubscriber {
    inner: Arc<Inner>,
}

struct Inner {
    registry: Registry,
    // Whether there is no layer: spans are made then, and no event is told.
    is_silent: bool,
    // No two subscribers of the process have the same one.
    number: u64,
    // By part and slot: the generation of the last span there in the upper half, its place's number in the lower.
    places: Vec<Vec<AtomicU64>>,
    losses: Losses,
}

thread_local! {
    // The entries of this thread that were refused, by their subscriber and their id: their exits do nothing.
    static REFUSED: RefCell<Vec<(u64, u64)>> = const { RefCell::new(Vec::new()) };
}

impl ProvedSubscriber {
    /// A subscriber with the default limits and no layer, to be changed before it is built.
    pub fn builder() -> SubscriberBuilder {
        SubscriberBuilder::default()
    }

    pub(crate) fn new(registry: Registry, is_silent: bool, places: Vec<Vec<AtomicU64>>) -> ProvedSubscriber {
        static MADE: AtomicU64 = AtomicU64::new(0);
        let number = MADE.fetch_add(1, Ordering::Relaxed);
        ProvedSubscriber { inner: Arc::new(Inner { registry, is_silent, number, places, losses: Losses::default() }) }
    }

    /// The registry under it: its counts, which spans are open and why.
    #[must_use]
    pub fn registry(&self) -> &Registry {
        &self.inner.registry
    }

    /// What was lost so far. It takes no lock.
    #[must_use]
    pub fn lost(&self) -> Lost {
        self.inner.losses.so_far(self.registry().lost())
    }

    // The answer of a call by an id; none where it was refused, which is counted.
    fn or_lost<T>(&self, result: Result<T, Error>) -> Option<T> {
        result.map_err(|reason| self.inner.losses.lose(&reason)).ok()
    }

    // None for the id of a span that wasn't made.
    fn ours(&self, id: &Id) -> Option<span_registry::Id> {
        self.registry().id(id.into_u64())
    }

    // What is known of its slot, and its generation in the upper half.
    fn slot(&self, id: span_registry::Id) -> Option<(&AtomicU64, u64)> {
        let known = self.inner.places.get(id.part() as usize)?.get(id.slot() as usize)?;
        Some((known, u64::from(id.generation()) << 32))
    }

    // Where the span was made.
    fn place_of(&self, id: span_registry::Id) -> Option<&'static Place> {
        let (known, generation) = self.slot(id)?;
        let number = known.load(Ordering::Acquire) ^ generation;
        u32::try_from(number).ok().and_then(numbered)
    }

    // A parent that isn't open any more is misuse, and makes a root.
    fn parent(&self, attributes: &Attributes<'_>) -> Parent {
        let Some(parent) = attributes.parent() else {
            return if attributes.is_contextual() { Parent::Current } else { Parent::Root };
        };
        let Some(parent) = self.ours(parent) else { return Parent::Root };
        let found = self.or_lost(self.registry().find(parent).ok_or(Error::Unknown));
        found.map_or(Parent::Root, |_| Parent::Of(parent))
    }

    // `Span` gives its handle back when it is dropped, so `tracing` gets one of its own, which goes back by the id.
    fn with_handle(&self, span: &Span) -> Option<span_registry::Id> {
        let id = span.id()?;
        self.or_lost(self.registry().clone_span(id))?;
        Some(id)
    }

    fn made(&self, attributes: &Attributes<'_>) -> Option<span_registry::Id> {
        let place = place(attributes.metadata());
        if !place.is_wanted_by(self.registry()) {
            return None;
        }
        let mut fields = Fields::at(place);
        if let Some(name) = place.name {
            fields.add("name", name, Kind::Text);
        }
        attributes.record(&mut fields);
        let (_, given) = fields.taken();
        let id = self.with_handle(&place.span(self.registry(), self.parent(attributes), given))?;
        if let Some((known, generation)) = self.slot(id) {
            known.store(generation | u64::from(place.number), Ordering::Release);
        }
        Some(id)
    }

    fn mark(&self, id: span_registry::Id) -> (u64, u64) {
        (self.inner.number, id.into_u64())
    }

    // Whether the topmost entry of the span was refused: its exit takes it out.
    fn was_refused(&self, id: span_registry::Id) -> bool {
        let taken = |refused: &RefCell<Vec<(u64, u64)>>| {
            let mut refused = refused.borrow_mut();
            let at = refused.iter().rposition(|entry| *entry == self.mark(id));
            at.map(|at| refused.remove(at)).is_some()
        };
        REFUSED.try_with(taken).unwrap_or(false)
    }
}

fn there(id: Option<span_registry::Id>) -> Id {
    Id::from_u64(id.map_or(NONE, span_registry::Id::into_u64))
}

impl Subscriber for ProvedSubscriber {
    /// The rules never change, so a callsite's interest is cached for good.
    fn register_callsite(&self, metadata: &'static Metadata<'static>) -> Interest {
        if self.enabled(metadata) {
            Interest::always()
        } else {
            Interest::never()
        }
    }

    fn enabled(&self, metadata: &Metadata<'_>) -> bool {
        let is_unheard = self.inner.is_silent && metadata.is_span();
        is_unheard || self.registry().enabled(level_of(*metadata.level()), metadata.target())
    }

    fn max_level_hint(&self) -> Option<LevelFilter> {
        if self.inner.is_silent {
            return None;
        }
        let most = self.registry().max_level();
        Some(most.map_or(LevelFilter::OFF, |level| LevelFilter::from_level(level_there(level))))
    }

    fn new_span(&self, attributes: &Attributes<'_>) -> Id {
        there(self.made(attributes))
    }

    fn record(&self, id: &Id, values: &Record<'_>) {
        let Some(id) = self.ours(id) else { return };
        let Some(place) = self.or_lost(self.place_of(id).ok_or(Error::Unknown)) else { return };
        let mut fields = Fields::at(place);
        values.record(&mut fields);
        let (_, given) = fields.taken();
        self.or_lost(record(self.registry(), id, given));
    }

    fn record_follows_from(&self, id: &Id, follows: &Id) {
        if let (Some(id), Some(follows)) = (self.ours(id), self.ours(follows)) {
            let told = vec![("follows_from", follows.to_string(), Kind::Integer)];
            self.or_lost(record(self.registry(), id, told));
        }
    }

    fn event(&self, event: &Event<'_>) {
        let place = place(event.metadata());
        if !place.is_wanted_by(self.registry()) {
            return;
        }
        let mut fields = Fields::at(place);
        match event.parent() {
            Some(parent) => fields.add("parent", parent.into_u64(), Kind::Integer),
            None if event.is_root() => fields.add("parent", 0, Kind::Integer),
            None => {}
        }
        event.record(&mut fields);
        let (message, given) = fields.taken();
        place.event(self.registry(), &message, given);
    }

    fn enter(&self, id: &Id) {
        let Some(id) = self.ours(id) else { return };
        if self.or_lost(self.registry().enter(id)).is_none() {
            // Where the thread's locals are gone, its exit is counted as misuse too.
            let _ending = REFUSED.try_with(|refused| refused.borrow_mut().push(self.mark(id)));
        }
    }

    fn exit(&self, id: &Id) {
        let Some(id) = self.ours(id) else { return };
        if !self.was_refused(id) {
            self.or_lost(self.registry().exit_or_owe(id));
        }
    }

    /// The id of no span where the handle is refused, so that it isn't given back either.
    fn clone_span(&self, id: &Id) -> Id {
        let cloned = self.ours(id).filter(|&id| self.or_lost(self.registry().clone_span(id)).is_some());
        there(cloned)
    }

    fn try_close(&self, id: Id) -> bool {
        let Some(id) = self.ours(&id) else { return false };
        match self.registry().try_close(id) {
            Err(reason) if reason.may_pass() => {
                self.or_lost(self.registry().close_or_owe(id));
                false
            }
            result => self.or_lost(result).unwrap_or(false),
        }
    }

    fn current_span(&self) -> Current {
        let current = self.or_lost(self.registry().current_span()).flatten();
        let known = current.and_then(|id| Some((id, self.place_of(id)?)));
        known.map_or_else(Current::none, |(id, place)| Current::new(there(Some(id)), place.metadata))
    }
}

impl fmt::Debug for ProvedSubscriber {
    fn fmt(&self, f: &mut fmt::Formatter<'_>) -> fmt::Result {
        f.debug_struct("ProvedSubscriber").field("counts", &self.registry().counts()).finish_non_exhaustive()
    }
}
