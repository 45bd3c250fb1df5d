//! What belongs to a thread: its stack of entered spans in each registry.
//!
//! A stack is given up when its thread ends: what is still entered is left then. In what runs in a thread after that,
//! the destructors of other thread locals, nothing can be entered, and no span is the current one.
use super::spans::Spans;
use crate::registry::stack::SpanStack;
use std::{
    cell::{Cell, RefCell},
    panic::{catch_unwind, AssertUnwindSafe},
    sync::{Arc, Weak},
};
use tracing_core::span::Id;

/// Of how many registries a thread keeps stacks in which nothing is entered.
const FEW: usize = 8;

thread_local! {
    // How many entries of the thread hold their span, in all registries; more, where a registry went with some. It has
    // no destructor, so that it is there to the thread's end.
    static HOLDING: Cell<usize> = const { Cell::new(0) };
    static STACKS: RefCell<Stacks> = const { RefCell::new(Stacks(Vec::new())) };
}

struct Stack {
    address: usize,
    // It keeps the address from being another registry's.
    spans: Weak<Spans>,
    entered: SpanStack,
}

fn address(spans: &Spans) -> usize {
    spans as *const Spans as usize
}

struct Stacks(Vec<Stack>);

impl Stacks {
    #[inline]
    fn at(&self, spans: &Spans) -> Option<usize> {
        match self.0.first() {
            Some(first) if first.address == address(spans) => Some(0),
            _ => self.0.iter().position(|stack| stack.address == address(spans)),
        }
    }

    #[cold]
    fn open(&mut self, spans: &Arc<Spans>) -> usize {
        let are_few = self.0.len() < FEW;
        self.0.retain(|stack| stack.spans.strong_count() > 0 && (are_few || !stack.entered.is_empty()));
        let stack = Stack { address: address(spans), spans: Arc::downgrade(spans), entered: SpanStack::default() };
        self.0.push(stack);
        self.0.len() - 1
    }
}

impl Drop for Stacks {
    /// A layer or a span's data that panics while a thread ends would end the process: it was heard of by the panic's
    /// hook.
    fn drop(&mut self) {
        for stack in self.0.drain(..) {
            let Some(spans) = stack.spans.upgrade() else { continue };
            for id in stack.entered.iter() {
                let _panicked = catch_unwind(AssertUnwindSafe(|| spans.leave(id.into_u64())));
            }
            // The registry itself may end here.
            let _panicked = catch_unwind(AssertUnwindSafe(|| drop(spans)));
        }
    }
}

/// Shows the thread's stack in the registry to a function that runs no code of others. None where the thread has none
/// any longer.
#[inline]
pub(super) fn with_stack<T>(spans: &Arc<Spans>, change: impl FnOnce(&mut SpanStack) -> T) -> Option<T> {
    let shown = STACKS.try_with(|stacks| {
        let mut stacks = stacks.try_borrow_mut().ok()?;
        let at = stacks.at(spans).unwrap_or_else(|| stacks.open(spans));
        Some(change(&mut stacks.0[at].entered))
    });
    shown.ok().flatten()
}

/// Enters a span, and answers whether the entry holds it.
#[inline]
pub(super) fn push(stack: &mut SpanStack, id: &Id) -> bool {
    let holds = stack.push(id.clone());
    HOLDING.with(|holding| holding.set(holding.get() + usize::from(holds)));
    holds
}

/// Leaves a span, and answers whether the entry held it.
#[inline]
pub(super) fn pop(stack: &mut SpanStack, id: &Id) -> bool {
    let held = stack.pop(id);
    HOLDING.with(|holding| holding.set(holding.get() - usize::from(held)));
    held
}

/// The thread's current span in a registry.
#[inline]
pub(super) fn current(spans: &Spans) -> Option<Id> {
    if HOLDING.with(Cell::get) == 0 {
        return None;
    }
    let current = STACKS.try_with(|stacks| {
        let stacks = stacks.try_borrow().ok()?;
        stacks.0[stacks.at(spans)?].entered.current()
    });
    current.ok().flatten()
}

/// The thread's stack in a registry, as layers with a filter look through it.
pub(crate) struct Entered<'a>(pub(super) &'a Spans);

impl Entered<'_> {
    pub(crate) fn iter(&self) -> &Self {
        self
    }

    /// The first answer of the entered spans, from the innermost on. The answers may be code of others, which may
    /// enter and leave spans meanwhile: nothing is borrowed then.
    pub(crate) fn find_map<T>(&self, mut answer: impl FnMut(&Id) -> Option<T>) -> Option<T> {
        let mut below = usize::MAX;
        loop {
            let (at, id) = self.next(below)?;
            if let Some(answer) = answer(&id) {
                return Some(answer);
            }
            below = at;
        }
    }

    fn next(&self, below: usize) -> Option<(usize, Id)> {
        let next = STACKS.try_with(|stacks| {
            let stacks = stacks.try_borrow().ok()?;
            let stack = &stacks.0[stacks.at(self.0)?];
            stack.entered.next(below)
        });
        next.ok().flatten()
    }
}
