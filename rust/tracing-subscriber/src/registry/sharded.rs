//! The registry over proved stores of spans: which spans are there, their parents, what holds them and when they close
//! is in `span_store`, whose theorems stand in its crate. What layers keep of a span, and which spans a thread has
//! entered, is here.
mod close;
mod lock;
mod numbers;
mod open;
mod places;
mod raw;
mod refused;
mod routing;
mod spans;
mod threads;

pub(crate) use close::CloseGuard;
pub use open::OpenSpan;

use self::{
    raw::Held,
    refused::Refused,
    spans::{DataInner, Spans},
    threads::{pop, push, with_stack, Entered},
};
use crate::{
    filter::{FilterId, FilterMap, FilterState},
    registry::{
        extensions::{Extensions, ExtensionsMut},
        LookupSpan, SpanData,
    },
};
use std::{sync::Arc, thread};
use tracing_core::{
    dispatcher::Dispatch,
    span::{self, Current, Id},
    Event, Interest, Metadata, Subscriber,
};

/// Stores the spans of a program for the layers above it, over proved stores.
///
/// It records nothing itself: a [`Layer`](crate::Layer) that is added by `with` finds spans by their ids, with their
/// parents, their metadata and what layers keep in their extensions. A span is there until its last handle was given
/// back, all its children ended, and all layers were told of its close.
///
/// No two spans of a process have one id, but for those of a registry that was dropped, whose number is given again
/// when the 8,190 others were. 8,191 registries may be there at once, and 51,380,224 spans in each.
#[cfg(feature = "registry")]
#[cfg_attr(docsrs, doc(cfg(all(feature = "registry", feature = "std"))))]
#[derive(Debug)]
// In lines of the processors' caches of its own: the count of the dispatcher's handles, which lies before the stack of
// layers and changes with each span of a macro, is in none of them.
#[repr(align(128))]
pub struct Registry {
    spans: Arc<Spans>,
    next_filter_id: u8,
}

/// What a [`Registry`] keeps of a span. It can be read as long as this value lives, also where the span closed
/// meanwhile.
#[cfg(feature = "registry")]
#[cfg_attr(docsrs, doc(cfg(all(feature = "registry", feature = "std"))))]
#[derive(Debug)]
pub struct Data<'a> {
    held: Held<'a, DataInner>,
}

impl Default for Registry {
    /// A registry without spans.
    ///
    /// # Panics
    /// Where 8,191 registries are there.
    fn default() -> Self {
        Self { spans: Arc::new(Spans::new()), next_filter_id: 0 }
    }
}

impl Registry {
    /// Guards a layer's part of a release. `stack` is the layer with all that is below it.
    pub(crate) fn start_close<'a>(&'a self, id: Id, stack: &'a dyn Subscriber) -> CloseGuard<'a> {
        CloseGuard::new(&self.spans, id.into_u64(), stack)
    }

    pub(crate) fn has_per_layer_filters(&self) -> bool {
        self.next_filter_id > 0
    }

    pub(crate) fn span_stack(&self) -> Entered<'_> {
        Entered(&self.spans)
    }

    #[inline(always)]
    fn current_id(&self) -> Option<Id> {
        threads::current(&self.spans)
    }

    #[inline(always)]
    fn add(&self, attrs: &span::Attributes<'_>, parent: Option<&Id>, filters: FilterMap) -> Result<Id, Refused> {
        let made = self.spans.add(parent.map(Id::into_u64), |data| {
            data.metadata = Some(attrs.metadata());
            data.filter_map = filters;
        });
        made.map(Id::from_u64)
    }

    /// A span that was refused: it is made without a parent, where that is the current span and ended since it was
    /// entered.
    #[cold]
    fn add_refused(&self, attrs: &span::Attributes<'_>, parent: Option<&Id>, filters: FilterMap, why: Refused) -> Id {
        match parent {
            Some(parent) if !attrs.is_contextual() || why != Refused::Unknown => self.refuse_hold(parent, why),
            Some(parent) if self.spans.data(parent.into_u64()).is_some() => self.refuse_hold(parent, why),
            Some(_) => self.add(attrs, None, filters).unwrap_or_else(|_| panic!("Unable to allocate another span")),
            None => panic!("Unable to allocate another span"),
        }
    }

    #[cold]
    fn refuse_hold(&self, id: &Id, why: Refused) -> ! {
        if why == Refused::Unknown && self.spans.data(id.into_u64()).is_some() {
            let handles = 0;
            assert_ne!(handles, 0, "tried to clone a span ({:?}) that already closed", id);
        }
        match why {
            Refused::Unknown => panic!(
                "tried to clone {:?}, but no span exists with that ID\n\
                This may be caused by consuming a parent span (`parent: span`) rather than borrowing it \
                (`parent: &span`).",
                id,
            ),
            Refused::CountFull => panic!("reference count overflow!"),
            Refused::Full | Refused::Other => panic!("Unable to allocate another span"),
        }
    }
}

fn refuse_release(id: &Id) {
    if !thread::panicking() {
        panic!("tried to drop a ref to {:?}, but no such span exists!", id);
    }
}

impl Subscriber for Registry {
    fn on_register_dispatch(&self, dispatch: &Dispatch) {
        self.spans.set_dispatch(dispatch);
    }

    fn register_callsite(&self, _: &'static Metadata<'static>) -> Interest {
        if self.has_per_layer_filters() {
            return FilterState::take_interest().unwrap_or_else(Interest::always);
        }
        Interest::always()
    }

    fn enabled(&self, _: &Metadata<'_>) -> bool {
        !self.has_per_layer_filters() || FilterState::event_enabled()
    }

    #[inline]
    fn new_span(&self, attrs: &span::Attributes<'_>) -> span::Id {
        self.spans.see_dispatch();
        let current = if attrs.is_contextual() { self.current_id() } else { None };
        let parent = attrs.parent().or(current.as_ref());
        let filters = crate::filter::FILTERING.with(|filtering| filtering.filter_map());
        debug_assert!(self.has_per_layer_filters() || filters == FilterMap::default());
        match self.add(attrs, parent, filters) {
            Ok(id) => id,
            Err(why) => self.add_refused(attrs, parent, filters, why),
        }
    }

    /// Fields are the layers' matter.
    #[inline]
    fn record(&self, _: &span::Id, _: &span::Record<'_>) {}

    fn record_follows_from(&self, _: &span::Id, _: &span::Id) {}

    fn event_enabled(&self, _: &Event<'_>) -> bool {
        !self.has_per_layer_filters() || FilterState::event_enabled()
    }

    /// Events are the layers' matter.
    fn event(&self, _: &Event<'_>) {}

    fn enter(&self, id: &span::Id) {
        let number = id.into_u64();
        let entered = with_stack(&self.spans, |stack| {
            if !self.spans.is_own(number) {
                return Err(Refused::Unknown);
            }
            if push(stack, id) {
                self.spans.keep(number).map_err(|why| {
                    pop(stack, id);
                    why
                })?;
            }
            Ok(())
        });
        if let Some(Err(why)) = entered {
            self.refuse_hold(id, why);
        }
    }

    fn exit(&self, id: &span::Id) {
        let is_released = with_stack(&self.spans, |stack| pop(stack, id)).unwrap_or(false);
        if is_released {
            match self.spans.release(id.into_u64()) {
                Ok(None) => {}
                Ok(Some(closing)) => self.spans.tell_and_close_up(closing, None),
                Err(_) => refuse_release(id),
            }
        }
    }

    fn clone_span(&self, id: &span::Id) -> span::Id {
        match self.spans.keep(id.into_u64()) {
            Ok(()) => id.clone(),
            Err(why) => self.refuse_hold(id, why),
        }
    }

    fn current_span(&self) -> Current {
        let current = || {
            let id = self.current_id()?;
            let data = self.spans.data(id.into_u64())?;
            Some(Current::new(id, data.metadata?))
        };
        current().unwrap_or_else(Current::none)
    }

    /// Gives a handle back, and answers whether the span is closing by that. The layers above are told then, and the
    /// outermost one's guard ends the span; where there is no layer, it ends here.
    fn try_close(&self, id: span::Id) -> bool {
        if close::is_told(id.into_u64()) {
            return true;
        }
        self.spans.see_dispatch();
        match self.spans.release(id.into_u64()) {
            Ok(None) => false,
            Ok(Some(closing)) => {
                if let Some(closing) = close::leave_to_layers(closing) {
                    self.spans.close_up(closing, None);
                }
                true
            }
            Err(_) => {
                refuse_release(&id);
                false
            }
        }
    }
}

impl<'a> LookupSpan<'a> for Registry {
    type Data = Data<'a>;

    fn span_data(&'a self, id: &Id) -> Option<Self::Data> {
        let held = self.spans.data(id.into_u64())?;
        Some(Data { held })
    }

    fn register_filter(&mut self) -> FilterId {
        let id = FilterId::new(self.next_filter_id);
        self.next_filter_id += 1;
        id
    }
}

impl<'a> SpanData<'a> for Data<'a> {
    fn id(&self) -> Id {
        Id::from_u64(self.held.id)
    }

    fn metadata(&self) -> &'static Metadata<'static> {
        self.held.metadata.expect("a span has metadata from its start")
    }

    fn parent(&self) -> Option<&Id> {
        self.held.parent.as_ref()
    }

    fn extensions(&self) -> Extensions<'_> {
        Extensions::new(self.held.extensions.read().expect("Mutex poisoned"))
    }

    fn extensions_mut(&self) -> ExtensionsMut<'_> {
        ExtensionsMut::new(self.held.extensions.write().expect("Mutex poisoned"))
    }

    #[inline]
    fn is_enabled_for(&self, filter: FilterId) -> bool {
        self.held.filter_map.is_enabled(filter)
    }
}
