//! What stays of spans that nothing holds any longer: each line says whether the data can still be looked up.
use programs::{child, is_there, lock, new, registry, site, Quiet};
use std::cell::RefCell;
use std::panic::{catch_unwind, AssertUnwindSafe};
use std::sync::Mutex;
use tracing::{dispatcher, Dispatch, Span, Subscriber};
use tracing_core::field::{Field, Visit};
use tracing_core::span::Id;
use tracing_core::Event;
use tracing_subscriber::fmt::format::FmtSpan;
use tracing_subscriber::layer::Context;
use tracing_subscriber::prelude::*;
use tracing_subscriber::registry::{LookupSpan, SpanRef};
use tracing_subscriber::{Layer, Registry};

fn say(what: &str, stays: bool) {
    println!("{what} => {}", if stays { "stays" } else { "gone" });
}

fn without_a_layer() {
    let dispatch = Dispatch::new(Registry::default());
    let id = dispatcher::with_default(&dispatch, || tracing::info_span!("s").id().unwrap());
    say("1 a closed span of a registry without a layer", is_there(&dispatch, &id));
}

/// Drops a span when it is told of a close.
#[derive(Default)]
struct Drops(Mutex<Option<Span>>);
impl<S: Subscriber> Layer<S> for Drops {
    fn on_close(&self, _: Id, _: Context<'_, S>) {
        let span = lock(&self.0).take();
        drop(span);
    }
}

fn in_a_close_of_another_registry() {
    let other = Dispatch::new(Registry::default().with(Quiet));
    let (parent, span) = dispatcher::with_default(&other, || {
        let parent = tracing::info_span!("parent");
        (parent.id().unwrap(), tracing::info_span!(parent: &parent, "span"))
    });
    let id = span.id().unwrap();
    let first = Dispatch::new(Registry::default().with(Drops(Mutex::new(Some(span)))));
    dispatcher::with_default(&first, || drop(tracing::info_span!("a")));
    say("2 a span that closes while a layer of another registry is told of a close", is_there(&other, &id));
    say("2 its parent", is_there(&other, &parent));
}

fn in_a_close_of_the_same_registry() {
    let dispatch = Dispatch::new(Registry::default().with(Drops::default()));
    let (parent, id) = dispatcher::with_default(&dispatch, || {
        let parent = tracing::info_span!("parent");
        let parent_id = parent.id().unwrap();
        let span = tracing::info_span!(parent: &parent, "span");
        drop(parent);
        let id = span.id().unwrap();
        *lock(&dispatch.downcast_ref::<Drops>().unwrap().0) = Some(span);
        drop(tracing::info_span!("a"));
        (parent_id, id)
    });
    say("3 a span that closes while a layer is told of another close", is_there(&dispatch, &id));
    say("3 its parent", is_there(&dispatch, &parent));
}

/// A value whose text is asked for once, and drops a span then.
struct Value(Mutex<Option<Span>>);
impl std::fmt::Debug for Value {
    fn fmt(&self, f: &mut std::fmt::Formatter<'_>) -> std::fmt::Result {
        let span = lock(&self.0).take();
        drop(span);
        f.write_str("value")
    }
}

struct Reads;
impl Visit for Reads {
    fn record_debug(&mut self, _: &Field, value: &dyn std::fmt::Debug) {
        let _text = format!("{value:?}");
    }
}
impl<S: Subscriber> Layer<S> for Reads {
    fn on_event(&self, event: &Event<'_>, _: Context<'_, S>) {
        event.record(&mut Reads);
    }
}

fn in_an_event() {
    let dispatch = Dispatch::new(Registry::default().with(Reads));
    let parent = dispatcher::with_default(&dispatch, || {
        let parent = tracing::info_span!("parent");
        let id = parent.id().unwrap();
        let child = tracing::info_span!(parent: &parent, "child");
        drop(parent);
        tracing::info!(value = ?Value(Mutex::new(Some(child))), "told");
        id
    });
    say(
        "4 the parent of a span whose last handle is dropped while a layer is told of an event",
        is_there(&dispatch, &parent),
    );
}

fn under_another_default() {
    let dispatch = Dispatch::new(Registry::default().with(Quiet));
    let (parent, child_id) = dispatcher::with_default(&dispatch, || {
        let parent = new(&dispatch, site!("parent"));
        let child = child(&dispatch, site!("child"), &parent);
        (parent, child)
    });
    dispatch.try_close(parent.clone());
    dispatch.try_close(child_id);
    say("5 the parent of a span that closes under another default subscriber", is_there(&dispatch, &parent));

    let span = new(&dispatch, site!("span"));
    dispatch.enter(&span);
    dispatch.exit(&span);
    dispatch.try_close(span.clone());
    say("6 a span that is entered and left under another default subscriber", is_there(&dispatch, &span));
}

fn at_a_threads_end() {
    let dispatch = Dispatch::new(Registry::default().with(Quiet));
    let left = dispatch.clone();
    let id = std::thread::spawn(move || {
        dispatcher::with_default(&left, || {
            let span = tracing::info_span!("left");
            let id = span.id().unwrap();
            let entry = span.enter();
            std::mem::forget(entry);
            id
        })
    });
    let id = id.join().unwrap();
    say("7 a span whose entry a thread left at its end", is_there(&dispatch, &id));
    let next = dispatch.clone();
    let current = std::thread::spawn(move || {
        dispatcher::with_default(&next, || Span::current().metadata().map(|metadata| metadata.name()))
    });
    println!("7 the next thread's current span => {:?}", current.join().unwrap());
}

thread_local! {
    static HELD: RefCell<Option<SpanRef<'static, Registry>>> = const { RefCell::new(None) };
}

struct LetsGo;
impl<S: Subscriber + for<'a> LookupSpan<'a>> Layer<S> for LetsGo {
    fn on_close(&self, id: Id, ctx: Context<'_, S>) {
        if ctx.span(&id).map(|span| span.name()) == Some("other") {
            drop(HELD.with(|held| held.borrow_mut().take()));
        }
    }
}

fn under_a_late_reader() {
    let dispatch: &'static Dispatch = Box::leak(Box::new(Dispatch::new(Registry::default().with(LetsGo))));
    let registry = registry(dispatch);
    dispatcher::with_default(dispatch, || {
        let grandparent = tracing::info_span!("grandparent");
        let parent = tracing::info_span!(parent: &grandparent, "parent");
        let child = tracing::info_span!(parent: &parent, "child");
        let ids: Vec<Id> = [&grandparent, &parent, &child].iter().map(|span| span.id().unwrap()).collect();
        HELD.with(|held| *held.borrow_mut() = registry.span(&ids[2]));
        drop(grandparent);
        drop(parent);
        drop(child);
        drop(tracing::info_span!("other"));
        for (name, id) in ["grandparent", "parent", "child"].iter().zip(&ids) {
            say(
                &format!("8 the {name}, where a reader of the child ends in another close"),
                registry.span(id).is_some(),
            );
        }
    });
}

struct Panics;
impl<S: Subscriber> Layer<S> for Panics {
    fn on_close(&self, _: Id, _: Context<'_, S>) {
        panic!("a layer's own");
    }
}

fn where_a_layer_panics() {
    let dispatch = Dispatch::new(Registry::default().with(Panics).with(Quiet));
    let (parent, child_id) = dispatcher::with_default(&dispatch, || {
        let parent = new(&dispatch, site!("parent"));
        let child = child(&dispatch, site!("child"), &parent);
        dispatch.try_close(parent.clone());
        let _panicked = catch_unwind(AssertUnwindSafe(|| dispatch.try_close(child.clone())));
        (parent, child)
    });
    say("9 a span of whose close a layer panics", is_there(&dispatch, &child_id));
    say("9 its parent", is_there(&dispatch, &parent));
}

/// At a thread's end the lines' own thread local, which is made after the registry's, is gone before the span is left.
fn where_a_layers_thread_local_is_gone() {
    let lines = tracing_subscriber::fmt::layer().with_writer(std::io::sink).with_span_events(FmtSpan::CLOSE);
    let dispatch = Dispatch::new(Registry::default().with(lines));
    let inside = dispatch.clone();
    let thread = std::thread::spawn(move || {
        dispatcher::with_default(&inside, || {
            let parent = tracing::info_span!("parent");
            let left = tracing::info_span!(parent: &parent, "left");
            std::mem::forget(left.enter());
            tracing::info!("told");
            (parent.id().unwrap(), left.id().unwrap())
        })
    });
    let (parent, left) = thread.join().unwrap();
    say(
        "11 a span that a thread left at its end, where a layer panics since its thread local is gone",
        is_there(&dispatch, &left),
    );
    say("11 its parent", is_there(&dispatch, &parent));
}

fn by_an_exit() {
    let dispatch = Dispatch::new(Registry::default().with(Quiet));
    let parent = dispatcher::with_default(&dispatch, || {
        let parent = new(&dispatch, site!("parent"));
        let child = child(&dispatch, site!("child"), &parent);
        dispatch.enter(&child);
        dispatch.try_close(child.clone());
        dispatch.exit(&child);
        dispatch.try_close(parent.clone());
        parent
    });
    say("10 the parent of a span that an exit closes", is_there(&dispatch, &parent));
}

fn main() {
    std::panic::set_hook(Box::new(|_| {}));
    without_a_layer();
    in_a_close_of_another_registry();
    in_a_close_of_the_same_registry();
    in_an_event();
    under_another_default();
    at_a_threads_end();
    under_a_late_reader();
    where_a_layer_panics();
    by_an_exit();
    where_a_layers_thread_local_is_gone();
}
