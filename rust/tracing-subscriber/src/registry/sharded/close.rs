//! Closing: the layers of the whole stack are told of it, child first, and then the span ends, once.
//!
//! What is kept here of a thread has no destructor, so that it is there to the thread's end.
use super::{
    raw::Held,
    spans::{Closing, DataInner, Spans, MOST_LOOKS},
    Registry,
};
use std::{
    cell::Cell,
    mem::{self, ManuallyDrop},
    panic::{catch_unwind, AssertUnwindSafe},
    ptr,
    sync::{atomic::Ordering, Mutex, MutexGuard, PoisonError},
    thread,
};
use tracing_core::{
    dispatcher::{self, Dispatch},
    span::Id,
    Subscriber,
};

thread_local! {
    /// The span of the release that goes through a stack of layers now, the innermost one; 0: none.
    static PASSING: Cell<u64> = const { Cell::new(0) };
    /// That span, where it is closing by that release.
    static CLOSING: Cell<ManuallyDrop<Option<Closing>>> = const { Cell::new(ManuallyDrop::new(None)) };
    /// The span that is closing already and of which the layers are being told, until that comes to the registry; 0:
    /// none.
    static TOLD: Cell<u64> = const { Cell::new(0) };
}

/// Whether the release of this id is one by which `Spans::tell` tells the layers. It is asked once.
#[inline]
pub(super) fn is_told(id: u64) -> bool {
    TOLD.with(|told| told.get() == id && told.replace(0) != 0)
}

/// Puts a span in the place of the one that is closing by the release that goes on.
#[inline]
fn replace_closing(closing: Option<Closing>) -> Option<Closing> {
    ManuallyDrop::into_inner(CLOSING.with(|cell| cell.replace(ManuallyDrop::new(closing))))
}

/// Leaves a closing span to the outermost layer whose guard is in this call; gives it back where there is none.
#[inline]
pub(super) fn leave_to_layers(closing: Closing) -> Option<Closing> {
    if PASSING.with(Cell::get) != closing.id() {
        return Some(closing);
    }
    let _none = replace_closing(Some(closing));
    None
}

/// Does what a panic left: another one that it meets would end the process, and was heard of by the panic's hook.
#[cold]
fn while_panicking(work: impl FnOnce()) {
    let _panicked = catch_unwind(AssertUnwindSafe(work));
}

/// Stands round a layer's part of a release. The outermost one of a release ends the span, if it is closing, when all
/// layers were told or one of them panicked.
pub(crate) struct CloseGuard<'a> {
    spans: &'a Spans,
    stack: &'a dyn Subscriber,
    // In the outermost guard: what was passing before.
    before: Option<(u64, Option<Closing>)>,
}

impl<'a> CloseGuard<'a> {
    /// `stack` is the layer with all that is below it.
    #[inline]
    pub(super) fn new(spans: &'a Spans, id: u64, stack: &'a dyn Subscriber) -> Self {
        let passing = PASSING.with(|cell| cell.replace(id));
        let before = (passing != id).then(|| (passing, replace_closing(None)));
        if before.is_some() && spans.looks.load(Ordering::Relaxed) > 0 {
            spans.has_layers.store(true, Ordering::Relaxed);
        }
        CloseGuard { spans, stack, before }
    }

    /// The registry knows it already.
    pub(crate) fn set_closing(&mut self) {}
}

impl Drop for CloseGuard<'_> {
    #[inline]
    fn drop(&mut self) {
        let Some((id, closing)) = self.before.take() else { return };
        PASSING.with(|cell| cell.set(id));
        if let Some(closing) = replace_closing(closing) {
            if thread::panicking() {
                while_panicking(|| self.spans.close_up(closing, Some(self.stack)));
            } else {
                self.spans.close_up(closing, Some(self.stack));
            }
        }
        if self.spans.looks.load(Ordering::Relaxed) > 0 {
            self.spans.see_stack(self.stack);
        }
    }
}

/// Ends a span of which the layers were told, and so on up its parents, as each of them is closing by that. Data is
/// dropped afterwards, the root's first: that may run code of the layers.
struct CloseUp<'a> {
    spans: &'a Spans,
    stack: Option<&'a dyn Subscriber>,
    next: Option<Closing>,
    ended: Vec<Held<'a, DataInner>>,
}

impl<'a> CloseUp<'a> {
    /// Keeps data until all are told. Without memory for that it's dropped now.
    fn keep(&mut self, data: Option<Held<'a, DataInner>>) {
        if self.ended.try_reserve(1).is_ok() {
            self.ended.extend(data);
        }
    }

    fn run(&mut self) {
        while let Some(closing) = self.next.take() {
            let (data, parent) = self.spans.end(closing);
            let Some(parent) = parent else {
                drop(data);
                break;
            };
            let id = parent.id();
            self.next = Some(parent);
            self.keep(data);
            if let Some(teller) = self.spans.teller(self.stack) {
                teller.tell(id);
            }
        }
        while let Some(data) = self.ended.pop() {
            drop(data);
        }
    }
}

impl Drop for CloseUp<'_> {
    /// What a panic of a layer left. A span is taken out before anything can panic again: there is an end.
    fn drop(&mut self) {
        while self.next.is_some() || !self.ended.is_empty() {
            while_panicking(|| self.run());
        }
    }
}

impl Spans {
    /// Ends a span of which the layers were told, and what is closing by that. `stack` is the outermost layer that
    /// told.
    pub(super) fn close_up(&self, closing: Closing, stack: Option<&dyn Subscriber>) {
        let (data, parent) = self.end(closing);
        if let Some(parent) = parent {
            self.close_parents(data, parent, stack);
        }
    }

    #[cold]
    fn close_parents(&self, data: Option<Held<'_, DataInner>>, parent: Closing, stack: Option<&dyn Subscriber>) {
        let id = parent.id();
        let mut rest = CloseUp { spans: self, stack, next: Some(parent), ended: Vec::new() };
        rest.keep(data);
        if let Some(teller) = self.teller(stack) {
            teller.tell(id);
        }
        rest.run();
    }

    /// Gives an entry's handle back.
    pub(super) fn leave(&self, id: u64) {
        if let Ok(Some(closing)) = self.release(id) {
            self.tell_and_close_up(closing, None);
        }
    }

    /// Closes a span of which no layer was told yet. Where there are layers and no way to them, it waits until there
    /// is one.
    #[cold]
    pub(super) fn tell_and_close_up(&self, closing: Closing, stack: Option<&dyn Subscriber>) {
        let teller = self.teller(stack);
        if teller.is_none() && self.has_layers.load(Ordering::Relaxed) {
            self.wait_to_be_told(Some(closing));
            return;
        }
        let id = closing.id();
        let mut rest = CloseUp { spans: self, stack, next: Some(closing), ended: Vec::new() };
        if let Some(teller) = teller {
            teller.tell(id);
        }
        rest.run();
    }

    /// The way to the layers: by the default dispatcher where this registry is in it, else by the outermost layer of
    /// the release that goes on, else by the dispatcher in which the registry was seen before. No other registry hears
    /// of it.
    fn teller<'s>(&self, stack: Option<&'s dyn Subscriber>) -> Option<Teller<'s>> {
        if let Some(dispatch) = self.default_dispatch() {
            return Some(Teller::Dispatch(dispatch));
        }
        let known = || lock(&self.dispatch).clone()?.upgrade().map(Teller::Dispatch);
        stack.map(Teller::Stack).or_else(known)
    }

    /// The default dispatcher, where this registry is in it. `get_default` would ask for memory where there is none.
    fn default_dispatch(&self) -> Option<Dispatch> {
        let found = dispatcher::get_current(|dispatch| {
            let registry = dispatch.downcast_ref::<Registry>()?;
            ptr::eq(&*registry.spans, self).then(|| dispatch.clone())
        });
        found.flatten()
    }

    /// Keeps the default dispatcher for later, where this registry is in it and none was seen. The last look is left to
    /// a release through layers.
    #[inline]
    pub(super) fn see_dispatch(&self) {
        if self.looks.load(Ordering::Relaxed) > 1 {
            self.look_for_dispatch(1);
        }
    }

    #[cold]
    fn look_for_dispatch(&self, rest: isize) {
        let spend = |looks| if looks > rest { Some(looks - 1) } else { None };
        let _is_spent = self.looks.fetch_update(Ordering::Relaxed, Ordering::Relaxed, spend);
        if let Some(dispatch) = self.default_dispatch() {
            self.set_dispatch(&dispatch);
            let untold = lock(&self.untold);
            if untold.is_empty() {
                self.looks.store(rest, Ordering::Relaxed);
            }
        }
    }

    pub(super) fn set_dispatch(&self, dispatch: &Dispatch) {
        *lock(&self.dispatch) = Some(dispatch.downgrade());
    }

    /// A release went through these layers. Where it ends in a panic, what waits is told by the next one.
    #[cold]
    fn see_stack(&self, stack: &dyn Subscriber) {
        if !thread::panicking() {
            self.look_for_dispatch(0);
            self.tell_untold(stack);
        }
    }

    fn tell_untold(&self, stack: &dyn Subscriber) {
        let mut rest = Untold { spans: self, closing: mem::take(&mut *lock(&self.untold)) };
        while let Some(closing) = rest.closing.pop() {
            self.tell_and_close_up(closing, Some(stack));
        }
    }

    /// The next release through layers tells them.
    fn wait_to_be_told(&self, closing: impl IntoIterator<Item = Closing>) {
        let mut untold = lock(&self.untold);
        untold.extend(closing);
        self.looks.store(MOST_LOOKS, Ordering::Relaxed);
    }
}

/// Spans that the layers are being told of. What a panic of theirs leaves waits again.
struct Untold<'a> {
    spans: &'a Spans,
    closing: Vec<Closing>,
}

impl Drop for Untold<'_> {
    fn drop(&mut self) {
        if !self.closing.is_empty() {
            self.spans.wait_to_be_told(self.closing.drain(..));
        }
    }
}

/// A way to the whole stack of layers.
enum Teller<'s> {
    Dispatch(Dispatch),
    Stack(&'s dyn Subscriber),
}

impl Teller<'_> {
    /// Tells the layers that a span is closing.
    fn tell(&self, id: u64) {
        struct Before(u64);
        impl Drop for Before {
            fn drop(&mut self) {
                TOLD.with(|told| told.set(self.0));
            }
        }
        let _before = Before(TOLD.with(|told| told.replace(id)));
        let id = Id::from_u64(id);
        let _is_closing = match self {
            Teller::Dispatch(dispatch) => dispatch.try_close(id),
            Teller::Stack(stack) => stack.try_close(id),
        };
    }
}

fn lock<T>(mutex: &Mutex<T>) -> MutexGuard<'_, T> {
    mutex.lock().unwrap_or_else(PoisonError::into_inner)
}
