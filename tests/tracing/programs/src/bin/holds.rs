//! A span's data holds handles of other spans, of its own registry and of another one, and is dropped with them:
//! nothing waits for ever, and nothing stays. Also where a registry is dropped with spans open, their data is dropped.
use programs::{is_there, new, registry, root, site, Checks, Judge, Quiet};
use std::sync::atomic::{AtomicU32, Ordering};
use std::sync::Arc;
use tracing::{dispatcher, Dispatch, Span};
use tracing_core::span::Id;
use tracing_subscriber::prelude::*;
use tracing_subscriber::registry::LookupSpan;
use tracing_subscriber::Registry;

/// A handle that lies in a span's data.
#[allow(dead_code)]
struct Holds(Span);

fn put(dispatch: &Dispatch, holder: &Id, held: Span) {
    let span = registry(dispatch).span(holder).expect("it is there");
    span.extensions_mut().insert(Holds(held));
}

/// Whether all of a chain of spans, each held by the data of the one before it, close when the first one does.
fn chain_of_handles(checks: &mut Checks, length: usize) {
    let judge = Judge::default();
    let dispatch = Dispatch::new(Registry::default().with(judge.clone()));
    dispatcher::with_default(&dispatch, || {
        let mut held = tracing::info_span!(parent: None, "last");
        for _ in 0..length {
            let holder = tracing::info_span!(parent: None, "holder");
            put(&dispatch, &holder.id().unwrap(), held);
            held = holder;
        }
        drop(held);
    });
    let (made, open, faults) = judge.verdict();
    checks.check("a chain of handles closes whole", made == length as u64 + 1 && open == 0 && faults.is_empty());
}

/// The holder's data holds its own child's sibling, its cousin in another registry, and a span whose close is told.
fn across_registries(checks: &mut Checks) {
    let (mine, other) = (Judge::default(), Judge::default());
    let first = Dispatch::new(Registry::default().with(mine.clone()));
    let second = Dispatch::new(Registry::default().with(other.clone()));
    let (far_parent, far) = dispatcher::with_default(&second, || {
        let parent = tracing::info_span!("far parent");
        (parent.id().unwrap(), tracing::info_span!(parent: &parent, "far"))
    });
    dispatcher::with_default(&first, || {
        let holder = tracing::info_span!("holder");
        put(&first, &holder.id().unwrap(), far);
        drop(holder);
    });
    checks.check("the span of the other registry closed", other.verdict().1 == 0 && !is_there(&second, &far_parent));
    checks.check("the holder closed", mine.verdict().1 == 0);
    checks.check("no fault was seen", mine.verdict().2.is_empty() && other.verdict().2.is_empty());
}

/// Threads whose spans hold spans of each other, and drop them at the same time.
fn by_threads(checks: &mut Checks) {
    let judge = Judge::default();
    let dispatch = Dispatch::new(Registry::default().with(judge.clone()));
    std::thread::scope(|scope| {
        for _ in 0..4 {
            scope.spawn(|| {
                dispatcher::with_default(&dispatch, || {
                    for _ in 0..2_000 {
                        let held = tracing::info_span!("held");
                        let holder = tracing::info_span!(parent: &held, "holder");
                        let id = holder.id().unwrap();
                        put(&dispatch, &id, tracing::info_span!(parent: &held, "sibling"));
                        drop(held);
                        drop(holder);
                    }
                });
            });
        }
    });
    let (_, open, faults) = judge.verdict();
    checks.check("the threads' spans closed", open == 0 && faults.is_empty());
}

struct Counts(Arc<AtomicU32>);
impl Drop for Counts {
    fn drop(&mut self) {
        self.0.fetch_add(1, Ordering::SeqCst);
    }
}

fn dropped_with_spans_open(checks: &mut Checks) {
    let drops = Arc::new(AtomicU32::new(0));
    let dispatch = Dispatch::new(Registry::default().with(Quiet));
    let other = Judge::default();
    let second = Dispatch::new(Registry::default().with(other.clone()));
    for at in 0..1_000 {
        let id = root(&dispatch, site!("open"));
        let data = registry(&dispatch).span(&id).unwrap();
        data.extensions_mut().insert(Counts(drops.clone()));
        if at % 2 == 0 {
            dispatcher::with_default(&second, || data.extensions_mut().insert(Holds(tracing::info_span!("far"))));
        }
        drop(data);
        if at % 3 == 0 {
            dispatch.try_close(id);
        }
    }
    drop(dispatch);
    checks.check("each span's data is dropped, once", drops.load(Ordering::SeqCst) == 1_000);
    checks.check("and what it held", other.verdict().1 == 0 && other.verdict().0 == 500);
}

/// A reader that is held over a close reads on; the slot's next spans have data of their own.
fn under_readers(checks: &mut Checks) {
    let drops = Arc::new(AtomicU32::new(0));
    let dispatch = Dispatch::new(Registry::default().with(Quiet));
    let registry = registry(&dispatch);
    let mut readers = Vec::new();
    for at in 0..100_u32 {
        let id = new(&dispatch, site!("read"));
        let reader = registry.span(&id).unwrap();
        reader.extensions_mut().insert(at);
        reader.extensions_mut().insert(Counts(drops.clone()));
        dispatch.try_close(id.clone());
        checks.check("a closed span isn't found", registry.span(&id).is_none());
        readers.push(reader);
    }
    let is_kept = readers.iter().enumerate().all(|(at, reader)| reader.extensions().get() == Some(&(at as u32)));
    checks.check("each reader reads its own span's data", is_kept && drops.load(Ordering::SeqCst) == 0);
    let fresh = new(&dispatch, site!("fresh"));
    checks
        .check("a new span has no data of another", registry.span(&fresh).unwrap().extensions().get::<u32>().is_none());
    drop(readers);
    checks.check("data is dropped with its last reader", drops.load(Ordering::SeqCst) == 100);
    dispatch.try_close(fresh);
}

fn main() {
    let mut checks = Checks::default();
    chain_of_handles(&mut checks, 100);
    across_registries(&mut checks);
    by_threads(&mut checks);
    dropped_with_spans_open(&mut checks);
    under_readers(&mut checks);
    checks.end();
}
