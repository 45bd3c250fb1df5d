//! Memory that is refused while a span is made, at each call of the allocator in turn: the panic says so, nothing is
//! kept, and the next span is made; and that a registry's end asks for none.
use programs::{child, is_there, registry, root, site, Checks, Quiet};
use std::alloc::{GlobalAlloc, Layout, System};
use std::panic::{catch_unwind, AssertUnwindSafe};
use std::ptr;
use std::sync::atomic::{AtomicI64, Ordering};
use tracing::{dispatcher, Dispatch};
use tracing_core::span::Id;
use tracing_subscriber::prelude::*;
use tracing_subscriber::registry::{LookupSpan, SpanRef};
use tracing_subscriber::Registry;

/// The system's allocator, which refuses one call: the next one after so many; below 0: none.
struct Refusing;
static BEFORE: AtomicI64 = AtomicI64::new(-1);

#[global_allocator]
static ALLOCATOR: Refusing = Refusing;

// SAFETY: it answers what the system's allocator answers, or that there is none.
unsafe impl GlobalAlloc for Refusing {
    unsafe fn alloc(&self, layout: Layout) -> *mut u8 {
        if BEFORE.load(Ordering::Relaxed) >= 0 && BEFORE.fetch_sub(1, Ordering::Relaxed) == 0 {
            return ptr::null_mut();
        }
        System.alloc(layout)
    }

    unsafe fn dealloc(&self, memory: *mut u8, layout: Layout) {
        System.dealloc(memory, layout);
    }
}

/// Spans that are there, the first one the parent of the others; and a reader of one that isn't any longer.
type Ready<'a> = (Vec<Id>, Option<SpanRef<'a, Registry>>);

fn nothing(_: &Dispatch) -> Ready<'_> {
    (Vec::new(), None)
}

/// The slot that is used next is still read.
fn a_reader(dispatch: &Dispatch) -> Ready<'_> {
    let parent = root(dispatch, site!("parent"));
    let read = child(dispatch, site!("read"), &parent);
    let reader = registry(dispatch).span(&read);
    dispatch.try_close(read);
    (vec![parent], reader)
}

/// The parent's store is full.
fn a_full_store(dispatch: &Dispatch) -> Ready<'_> {
    let mut ids = vec![root(dispatch, site!("parent"))];
    for _ in 1..1 << 16 {
        ids.push(child(dispatch, site!("child"), &ids[0]));
    }
    (ids, None)
}

fn make(dispatch: &Dispatch, ids: &[Id]) -> Id {
    match ids.first() {
        Some(parent) => child(dispatch, site!("child"), parent),
        None => root(dispatch, site!("root")),
    }
}

fn each_call(checks: &mut Checks, what: &str, ready: fn(&Dispatch) -> Ready<'_>) {
    let mut calls = 0;
    loop {
        let dispatch = Dispatch::new(Registry::default().with(Quiet));
        let (mut ids, reader) = ready(&dispatch);
        BEFORE.store(calls, Ordering::Relaxed);
        let made = catch_unwind(AssertUnwindSafe(|| make(&dispatch, &ids)));
        let is_refused = BEFORE.swap(-1, Ordering::Relaxed) < 0;
        match made {
            Ok(id) => ids.push(id),
            Err(panic) => {
                let text = panic.downcast_ref::<&str>().copied();
                checks.check(&format!("{what}, {text:?}"), text == Some("Unable to allocate another span"));
            }
        }
        ids.push(make(&dispatch, &ids));
        checks.check(&format!("{what}: all are there"), ids.iter().all(|id| is_there(&dispatch, id)));
        let is_whole = ids.iter().rev().all(|id| dispatch.try_close(id.clone()) && !is_there(&dispatch, id));
        checks.check(&format!("{what}: each closes by its one handle"), is_whole);
        drop(reader);
        if !is_refused {
            break;
        }
        calls += 1;
    }
    println!("{what}: {calls} calls refused");
    checks.check(&format!("{what}: memory was asked for"), calls > 0);
}

fn the_end_of_a_registry(checks: &mut Checks) {
    let dispatch = Dispatch::new(Registry::default().with(Quiet));
    let ids = [root(&dispatch, site!("closed")), root(&dispatch, site!("open"))];
    dispatch.try_close(ids[0].clone());
    BEFORE.store(0, Ordering::Relaxed);
    drop(dispatch);
    checks.check("a registry's end asks for no memory", BEFORE.swap(-1, Ordering::Relaxed) == 0);
}

fn main() {
    std::panic::set_hook(Box::new(|_| {}));
    // What tracing-core asks for, once a thread.
    dispatcher::get_default(|_| ());
    let mut checks = Checks::default();
    the_end_of_a_registry(&mut checks);
    each_call(&mut checks, "the first span", nothing);
    each_call(&mut checks, "a span whose slot is read", a_reader);
    each_call(&mut checks, "a child beyond its parent's store", a_full_store);
    checks.end();
}
