//! The same text of the real registry and of the proved one, under many layers; and that nothing stays.
use std::io::Write;
use std::panic::{catch_unwind, AssertUnwindSafe};
use std::sync::{Arc, Mutex, MutexGuard, PoisonError};
use tracing::{dispatcher, Dispatch, Level};
use tracing_core::span::Id;
use tracing_core::Subscriber;
use tracing_span_registry::ProvedRegistry;
use tracing_subscriber::filter::{filter_fn, EnvFilter, LevelFilter, Targets};
use tracing_subscriber::fmt::format::FmtSpan;
use tracing_subscriber::layer::Context;
use tracing_subscriber::prelude::*;
use tracing_subscriber::registry::LookupSpan;
use tracing_subscriber::{reload, Layer, Registry};

/// Held by each test to its end. Where a call site's interest is built anew, `tracing-core` may ask the thread's default
/// dispatcher alone (it does while it knows of one only), and so have one test switch off what another is counting.
fn alone() -> MutexGuard<'static, ()> {
    static ALONE: Mutex<()> = Mutex::new(());
    ALONE.lock().unwrap_or_else(PoisonError::into_inner)
}

#[derive(Clone, Default)]
struct Out(Arc<Mutex<Vec<u8>>>);

impl Write for Out {
    fn write(&mut self, bytes: &[u8]) -> std::io::Result<usize> {
        self.0.lock().unwrap().extend_from_slice(bytes);
        Ok(bytes.len())
    }
    fn flush(&mut self) -> std::io::Result<()> {
        Ok(())
    }
}

impl Out {
    /// The lines, without the times that a close tells.
    fn lines(&self) -> Vec<String> {
        let text = String::from_utf8(self.0.lock().unwrap().clone()).unwrap();
        text.lines().map(|line| line.split(" time.busy").next().unwrap_or_default().to_owned()).collect()
    }
}

fn writes<S: Subscriber + for<'a> LookupSpan<'a> + Send + Sync>(out: &Out) -> impl Layer<S> {
    let out = out.clone();
    let layer = tracing_subscriber::fmt::layer().with_writer(move || out.clone());
    layer.without_time().with_ansi(false).with_target(false).with_span_events(FmtSpan::FULL)
}

fn work() {
    let outer = tracing::info_span!("outer", k = 1, later = tracing::field::Empty);
    let entered = outer.enter();
    outer.record("later", "x");
    let inner = tracing::debug_span!("inner", k = %"v");
    let odd = tracing::info_span!("odd name :=", n = 2.5);
    inner.in_scope(|| tracing::info!(rows = 3, "read"));
    odd.follows_from(&inner);
    let twice = outer.enter();
    tracing::warn!(parent: &odd, "in the odd one");
    drop(twice);
    drop(inner);
    tracing::error!("last");
    drop(odd);
    drop(entered);
}

fn chain() {
    let first = tracing::info_span!("first");
    let second = tracing::info_span!(parent: &first, "second");
    let third = tracing::info_span!(parent: &second, "third");
    drop(first);
    drop(second);
    let twin = third.clone();
    drop(third);
    drop(twin);
}

fn in_a_thread() {
    let dispatch = dispatcher::get_default(Dispatch::clone);
    let span = tracing::info_span!("span");
    let thread = move || dispatcher::with_default(&dispatch, || span.in_scope(|| tracing::info!("there")));
    std::thread::spawn(thread).join().unwrap();
}

fn records() {
    let text = format_args!("logged");
    let record = log::Record::builder().args(text).level(log::Level::Info).target("lib").build();
    tracing::info_span!("span").in_scope(|| tracing_log::format_trace(&record).unwrap());
}

macro_rules! same {
    ($name:ident, $work:expr, |$registry:ident, $out:ident| $stack:expr) => {
        #[test]
        fn $name() {
            let _alone = alone();
            let (theirs, ours) = (Out::default(), Out::default());
            {
                let ($registry, $out) = (tracing_subscriber::registry(), &theirs);
                tracing::subscriber::with_default($stack, $work);
            }
            {
                let ($registry, $out) = (ProvedRegistry::default(), &ours);
                tracing::subscriber::with_default($stack, $work);
            }
            assert!(!theirs.lines().is_empty());
            assert_eq!(theirs.lines(), ours.lines());
        }
    };
}

same!(fmt_layer, work, |registry, out| registry.with(writes(out)));
same!(env_filter_above, work, |registry, out| registry.with(writes(out)).with(EnvFilter::new("info")));
same!(env_filter_by_span, work, |registry, out| {
    registry.with(writes(out)).with(EnvFilter::new("error,[outer{k=1}]=debug"))
});
same!(env_filter_of_a_layer, work, |registry, out| registry.with(writes(out).with_filter(EnvFilter::new("info"))));
same!(two_layers_with_filters, work, |registry, out| {
    registry.with(writes(out).with_filter(LevelFilter::DEBUG)).with(writes(out).with_filter(LevelFilter::WARN))
});
same!(a_filter_that_leaves_a_span_out, work, |registry, out| {
    registry.with(writes(out).with_filter(filter_fn(|metadata| metadata.name() != "inner")))
});
same!(targets, work, |registry, out| {
    registry.with(writes(out).with_filter(Targets::new().with_default(Level::INFO)))
});
same!(reloaded, work, |registry, out| {
    let (filter, handle) = reload::Layer::new(LevelFilter::ERROR);
    let stack = registry.with(filter).with(writes(out));
    handle.modify(|filter| *filter = LevelFilter::TRACE).unwrap();
    stack
});
same!(lists_and_options, work, |registry, out| {
    let layers: Vec<Box<dyn Layer<_> + Send + Sync>> = vec![writes(out).boxed(), writes(out).boxed()];
    registry.with(layers).with(None::<LevelFilter>)
});
same!(a_chain_closes_child_first, chain, |registry, out| registry.with(writes(out)));
same!(another_thread, in_a_thread, |registry, out| registry.with(writes(out)));
same!(records_of_log, records, |registry, out| registry.with(writes(out)));

/// Counts the entries of each span in its extensions.
struct Counts(Arc<Mutex<Vec<String>>>);
struct Entered(u32);

impl<S: Subscriber + for<'a> LookupSpan<'a>> Layer<S> for Counts {
    fn on_enter(&self, id: &Id, ctx: Context<'_, S>) {
        let span = ctx.span(id).unwrap();
        let mut extensions = span.extensions_mut();
        match extensions.get_mut::<Entered>() {
            Some(entered) => entered.0 += 1,
            None => extensions.insert(Entered(1)),
        }
    }
    fn on_close(&self, id: Id, ctx: Context<'_, S>) {
        let span = ctx.span(&id).expect("data at the close");
        let path: Vec<_> = span.scope().from_root().map(|span| span.name()).collect();
        let entered = span.extensions().get::<Entered>().map_or(0, |entered| entered.0);
        self.0.lock().unwrap().push(format!("{} entered {entered}", path.join(":")));
    }
}

fn stack() -> (Dispatch, Arc<Mutex<Vec<String>>>) {
    let log = Arc::default();
    (Dispatch::new(ProvedRegistry::default().with(Counts(Arc::clone(&log)))), log)
}

fn registry(dispatch: &Dispatch) -> &ProvedRegistry {
    dispatch.downcast_ref().unwrap()
}

#[test]
fn a_layer_of_ones_own_with_extensions() {
    let _alone = alone();
    let (dispatch, log) = stack();
    dispatcher::with_default(&dispatch, || {
        let parent = tracing::info_span!("a");
        let child = tracing::info_span!(parent: &parent, "b");
        drop(parent);
        (0..3).for_each(|_| child.in_scope(|| ()));
    });
    assert_eq!(*log.lock().unwrap(), ["a:b entered 3", "a entered 0"]);
    let counts = registry(&dispatch).registry().counts();
    assert_eq!((counts.open, counts.made, counts.closed), (0, 2, 2));
}

#[test]
fn many_threads_leave_nothing() {
    let _alone = alone();
    let (dispatch, _) = stack();
    let root = dispatcher::with_default(&dispatch, || tracing::info_span!("root"));
    let rounds = || {
        for _ in 0..500 {
            let outer = tracing::info_span!(parent: &root, "outer");
            let _entered = outer.enter();
            let inner = tracing::info_span!("inner");
            let twin = inner.clone();
            drop(inner);
            twin.in_scope(|| tracing::info!("told"));
        }
    };
    std::thread::scope(|scope| {
        for _ in 0..8 {
            scope.spawn(|| dispatcher::with_default(&dispatch, rounds));
        }
    });
    dispatcher::with_default(&dispatch, || drop(root));
    let counts = registry(&dispatch).registry().counts();
    assert_eq!((counts.open, counts.made), (0, 8001));
}

#[test]
fn an_exit_that_panics_leaves_the_span() {
    let _alone = alone();
    let (dispatch, _) = stack();
    let span = dispatcher::with_default(&dispatch, || tracing::info_span!("a"));
    let id = span.id().unwrap();
    dispatch.enter(&id);
    // The store asks the default subscriber, which knows no such span.
    let other = Dispatch::new(Registry::default());
    let left = catch_unwind(AssertUnwindSafe(|| dispatcher::with_default(&other, || dispatch.exit(&id))));
    assert!(left.is_err());
    assert_eq!(registry(&dispatch).registry().current_span().unwrap(), None);
    dispatcher::with_default(&dispatch, || drop(span));
    assert_eq!(registry(&dispatch).registry().counts().open, 0);
}

#[test]
fn ids_are_found_while_spans_are_open() {
    let _alone = alone();
    let (dispatch, _) = stack();
    dispatcher::with_default(&dispatch, || {
        let span = tracing::info_span!("a");
        let id = span.id().unwrap();
        assert_eq!(registry(&dispatch).span(&id).unwrap().name(), "a");
        drop(span);
        assert!(registry(&dispatch).span(&id).is_none());
    });
}
