//! The proved registry under the layers of tracing-subscriber.
use span_registry::{Callsite, Drain, Error, Level, Meta, Parent, Registry};
use std::any::TypeId;
use std::cell::Cell;
use std::fmt;
use std::sync::atomic::{AtomicBool, AtomicU64, Ordering};
use std::sync::{Mutex, PoisonError};
use std::thread;
use tracing_core::span::{Attributes, Current, Id, Record};
use tracing_core::{Event, Interest, LevelFilter, Metadata, Subscriber};
use tracing_subscriber::filter::{FilterId, Filtered};
use tracing_subscriber::registry::{Extensions, ExtensionsMut, LookupSpan, SpanData};
use tracing_subscriber::Layer;

type Store = tracing_subscriber::Registry;

/// How many spans may be open, and how many threads may be inside spans at once, of a default registry.
const SLOTS: u32 = 65_536;
const THREADS: u32 = 256;
/// How many batches the ring holds, and after how many calls it is emptied: there is no layer that reads them.
const RING: u32 = 4096;
const CALLS: u64 = 1024;
/// An id of the proved registry is generation * 2^24 + slot + 1.
const SLOT_BITS: u32 = 24;

/// A layer that does nothing, by whose type tracing-subscriber is asked what it asks.
struct Nothing;
impl<S: Subscriber> Layer<S> for Nothing {}

/// What the store keeps of a span beside what layers put there.
#[derive(Clone)]
struct Ours {
    id: span_registry::Id,
    parent: Option<Id>,
}

/// A registry for the layers of tracing-subscriber, over the proved one.
///
/// ```
/// use tracing_span_registry::ProvedRegistry;
/// use tracing_subscriber::prelude::*;
///
/// // In place of tracing_subscriber::registry():
/// ProvedRegistry::default().with(tracing_subscriber::fmt::layer()).init();
/// let span = tracing::info_span!("GET /users");
/// span.in_scope(|| tracing::info!("read"));
/// ```
///
/// The proved registry says which spans are open, who their parents are, which span is current, and what a release
/// closes. Beside it stands one [`tracing_subscriber::Registry`], the *store*: extensions, filter ids and the maps of
/// filters can't be made outside of that crate. It holds each span's extensions and filters, and its ids are those
/// that `tracing` sees. It is shown to the layers as the `Registry` under them, so that `Layered` gives an entry back
/// when the last layer was told of the close, and so that layers with a filter find its stack. What stays of its
/// faults is said in the crate's README.
pub struct ProvedRegistry {
    registry: Registry,
    drain: Mutex<Drain>,
    store: Store,
    // By slot of the proved registry: the span's id as `tracing` knows it, 0 where there is none.
    by_slot: Vec<AtomicU64>,
    // One for all: for this the proved registry needs no names, targets or fields.
    site: Callsite,
    calls: AtomicU64,
    // Whether the first layer asked if there are layers with filters below it.
    was_asked: AtomicBool,
}

thread_local! {
    // The span that this thread is leaving, 0: none. The store gives back what the entry held by `try_close`.
    static LEAVING: Cell<u64> = const { Cell::new(0) };
}

/// Leaves a span in the proved registry where the store's exit didn't come to it, also by a panic: it is a duplicate,
/// there is no entry, or another subscriber is the default one now.
struct Leaving<'a> {
    registry: &'a ProvedRegistry,
    id: &'a Id,
    ours: span_registry::Id,
}

impl Drop for Leaving<'_> {
    fn drop(&mut self) {
        if LEAVING.replace(0) != 0 {
            let is_closed = self.registry.call(|| self.registry.registry.exit(self.ours)).unwrap_or(false);
            self.registry.ended(self.id, is_closed);
        }
    }
}

impl Default for ProvedRegistry {
    /// Room for 65,536 spans at once, and for 256 threads inside spans at once.
    ///
    /// # Panics
    /// Where there is no memory for it.
    fn default() -> ProvedRegistry {
        ProvedRegistry::new(SLOTS, THREADS).expect("memory for a registry")
    }
}

fn slot_of(id: span_registry::Id) -> usize {
    ((id.into_u64() - 1) % (1 << SLOT_BITS)) as usize
}

impl ProvedRegistry {
    /// So many spans may be open at once (1 to 2^24), and so many threads may be inside spans at once (1 to 65,536).
    pub fn new(slots: u32, threads: u32) -> Result<ProvedRegistry, Error> {
        let (registry, drain) = Registry::builder().slots(slots).workers(threads).ring(RING).build()?;
        let site = registry.callsite(&Meta::new(Level::Info, "", "span"))?;
        Ok(ProvedRegistry {
            registry,
            drain: Mutex::new(drain),
            store: Store::default(),
            by_slot: (0..slots).map(|_| AtomicU64::new(0)).collect(),
            site,
            calls: AtomicU64::new(0),
            was_asked: AtomicBool::new(false),
        })
    }

    /// The registry under it, whose counts can be asked for.
    pub fn registry(&self) -> &Registry {
        &self.registry
    }

    // Each accepted call puts a batch into the ring, though nobody is told: somebody has to take it out.
    fn call<T>(&self, call: impl Fn() -> Result<T, Error>) -> Result<T, Error> {
        if self.calls.fetch_add(1, Ordering::Relaxed) % CALLS == CALLS - 1 {
            self.empty_ring();
        }
        loop {
            match call() {
                Err(Error::Backlog) => self.empty_ring(),
                result => return result,
            }
        }
    }

    fn empty_ring(&self) {
        let mut drain = self.drain.lock().unwrap_or_else(PoisonError::into_inner);
        while drain.line().is_some() {}
    }

    fn ours(&self, id: &Id) -> Option<Ours> {
        self.store.span(id)?.extensions().get::<Ours>().cloned()
    }

    fn id_of(&self, id: span_registry::Id) -> Option<Id> {
        let id = self.by_slot[slot_of(id)].load(Ordering::Acquire);
        (id != 0).then(|| Id::from_u64(id))
    }

    fn current(&self) -> Option<Id> {
        self.id_of(self.registry.current_span().ok()??)
    }

    fn known(&self, id: &Id) -> Ours {
        self.ours(id).unwrap_or_else(|| {
            panic!(
                "tried to clone {id:?}, but no span exists with that ID\nThis may be caused by consuming a parent span \
                (`parent: span`) rather than borrowing it (`parent: &span`)."
            )
        })
    }

    /// Brings the store's count of an entry to zero where the proved registry closed the span: the store looks at it
    /// when the entry is used again.
    fn ended(&self, id: &Id, is_closed: bool) -> bool {
        if is_closed {
            while !self.store.try_close(id.clone()) {}
        }
        is_closed
    }

    /// Keeps in the store what is known of a span that was made, and answers its id there.
    fn stored(&self, attributes: &Attributes<'_>, made: span_registry::Id, parent: Option<Id>) -> Id {
        let (metadata, values) = (attributes.metadata(), attributes.values());
        // The store holds the parent as long as the child's entry is there, so that layers find it when the child
        // closes.
        let id = match &parent {
            None => self.store.new_span(&Attributes::new_root(metadata, values)),
            Some(parent) => self.store.new_span(&Attributes::child_of(parent.clone(), metadata, values)),
        };
        self.by_slot[slot_of(made)].store(id.into_u64(), Ordering::Release);
        let span = self.store.span(&id).expect("it was made");
        span.extensions_mut().insert(Ours { id: made, parent });
        id
    }
}

impl Subscriber for ProvedRegistry {
    fn register_callsite(&self, metadata: &'static Metadata<'static>) -> Interest {
        self.store.register_callsite(metadata)
    }

    // With what `downcast_raw` answers, that is: whatever the layers say.
    fn max_level_hint(&self) -> Option<LevelFilter> {
        Some(LevelFilter::OFF)
    }

    fn enabled(&self, metadata: &Metadata<'_>) -> bool {
        self.store.enabled(metadata)
    }

    fn event_enabled(&self, event: &Event<'_>) -> bool {
        self.store.event_enabled(event)
    }

    fn new_span(&self, attributes: &Attributes<'_>) -> Id {
        let current = if attributes.is_contextual() { self.current() } else { None };
        let parent = attributes.parent().cloned().or(current);
        let under = parent.as_ref().map_or(Parent::Root, |id| Parent::Of(self.known(id).id));
        // The proved registry lets go of a parent in the step that closes the child. The layers are told after that
        // step and have to find the parent open until then: so it has a handle more for each child, which the store
        // gives back by `try_close` of the whole stack once it dropped the child.
        if let Parent::Of(parent) = under {
            let kept = self.call(|| self.registry.clone_span(parent));
            kept.unwrap_or_else(|why| panic!("tried to clone a span ({parent:?}) that already closed: {why}"));
        }
        let made = self.call(|| self.registry.new_span_at(&self.site, under, &[]));
        match made {
            Ok(Some(made)) => self.stored(attributes, made, parent),
            Ok(None) => unreachable!("a registry without layers wants each span"),
            Err(why) => {
                if let Parent::Of(parent) = under {
                    let _is_open = self.call(|| self.registry.try_close(parent));
                }
                panic!("Unable to allocate another span: {why}")
            }
        }
    }

    fn record(&self, _: &Id, _: &Record<'_>) {}

    fn record_follows_from(&self, _: &Id, _: &Id) {}

    fn event(&self, _: &Event<'_>) {}

    fn enter(&self, id: &Id) {
        let ours = self.known(id);
        self.call(|| self.registry.enter(ours.id)).unwrap_or_else(|why| panic!("tried to enter {id:?}: {why}"));
        self.store.enter(id);
    }

    fn exit(&self, id: &Id) {
        let Some(ours) = self.ours(id) else { return };
        LEAVING.set(id.into_u64());
        let _leaving = Leaving { registry: self, id, ours: ours.id };
        // Where the entry is no duplicate, the store gives its hold back by the default subscriber's `try_close`.
        self.store.exit(id);
    }

    fn clone_span(&self, id: &Id) -> Id {
        let ours = self.known(id);
        let kept = self.call(|| self.registry.clone_span(ours.id));
        kept.unwrap_or_else(|why| panic!("tried to clone a span ({id:?}) that already closed: {why}"));
        id.clone()
    }

    fn try_close(&self, id: Id) -> bool {
        let Some(ours) = self.ours(&id) else {
            if thread::panicking() {
                return false;
            }
            panic!("tried to drop a ref to {id:?}, but no such span exists!")
        };
        let is_leaving = LEAVING.get() == id.into_u64() && LEAVING.replace(0) != 0;
        let closed = if is_leaving {
            self.call(|| self.registry.exit(ours.id))
        } else {
            self.call(|| self.registry.try_close(ours.id))
        };
        match closed {
            Ok(is_closed) => self.ended(&id, is_closed),
            Err(_) if thread::panicking() => false,
            Err(why) => panic!("tried to drop a ref to {id:?}: {why}"),
        }
    }

    fn current_span(&self) -> Current {
        let current = self.current().and_then(|id| Some((self.store.span(&id)?.metadata(), id)));
        current.map_or_else(Current::none, |(metadata, id)| Current::new(id, metadata))
    }

    #[allow(unsafe_code)]
    unsafe fn downcast_raw(&self, id: TypeId) -> Option<*const ()> {
        if id == TypeId::of::<Self>() {
            return Some(self as *const Self as *const ());
        }
        // Two types that are private to tracing-subscriber, by which it asks what it knows of its own `Registry`
        // without asking. The layers that have them answer. SAFETY: nothing is read of what is answered.
        if let Some(answer) = unsafe { <Option<Nothing> as Layer<Store>>::downcast_raw(&None, id) } {
            return Some(answer);
        }
        let filtered: Filtered<Nothing, LevelFilter, Store> = Nothing.with_filter(LevelFilter::OFF);
        let is_known = id == TypeId::of::<Nothing>() || id == TypeId::of::<LevelFilter>();
        // SAFETY: as above.
        let asks_for_filters = !is_known && unsafe { Layer::<Store>::downcast_raw(&filtered, id) }.is_some();
        if asks_for_filters && !self.was_asked.swap(true, Ordering::Relaxed) {
            return Some(self as *const Self as *const ());
        }
        // `Layered::try_close` and `Context::lookup_current` ask for it.
        (id == TypeId::of::<Store>()).then_some(&self.store as *const Store as *const ())
    }
}

impl<'a> LookupSpan<'a> for ProvedRegistry {
    type Data = Data<'a>;

    fn span_data(&'a self, id: &Id) -> Option<Data<'a>> {
        let inner = self.store.span_data(id)?;
        let parent = inner.extensions().get::<Ours>().and_then(|ours| ours.parent.clone());
        Some(Data { inner, parent })
    }

    fn register_filter(&mut self) -> FilterId {
        self.store.register_filter()
    }
}

impl fmt::Debug for ProvedRegistry {
    fn fmt(&self, f: &mut fmt::Formatter<'_>) -> fmt::Result {
        f.debug_struct("ProvedRegistry").field("counts", &self.registry.counts()).finish_non_exhaustive()
    }
}

/// What is known of a span.
pub struct Data<'a> {
    inner: <Store as LookupSpan<'a>>::Data,
    parent: Option<Id>,
}

impl<'a> SpanData<'a> for Data<'a> {
    fn id(&self) -> Id {
        self.inner.id()
    }

    fn metadata(&self) -> &'static Metadata<'static> {
        self.inner.metadata()
    }

    fn parent(&self) -> Option<&Id> {
        self.parent.as_ref()
    }

    fn extensions(&self) -> Extensions<'_> {
        self.inner.extensions()
    }

    fn extensions_mut(&self) -> ExtensionsMut<'_> {
        self.inner.extensions_mut()
    }

    fn is_enabled_for(&self, filter: FilterId) -> bool {
        self.inner.is_enabled_for(filter)
    }
}

impl fmt::Debug for Data<'_> {
    fn fmt(&self, f: &mut fmt::Formatter<'_>) -> fmt::Result {
        f.debug_struct("Data").field("id", &self.id()).finish_non_exhaustive()
    }
}
