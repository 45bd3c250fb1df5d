//! Asks a registry questions, one line an answer: `QUESTION => ANSWER`. The same program over the original and over
//! the proved store shows where the two differ.
use programs::{child, is_there, lock, new, record, registry, root, site, Quiet};
use std::any::{Any, TypeId};
use std::fmt::Debug;
use std::panic::{catch_unwind, AssertUnwindSafe};
use std::sync::atomic::{AtomicU32, Ordering};
use std::sync::{Arc, Mutex};
use tracing::{dispatcher, Dispatch, Span, Subscriber};
use tracing_core::span::{Attributes, Current, Id, Record};
use tracing_core::{Event, Level, Metadata};
use tracing_subscriber::filter::{DynFilterFn, FilterFn, LevelFilter};
use tracing_subscriber::layer::Context;
use tracing_subscriber::prelude::*;
use tracing_subscriber::registry::LookupSpan;
use tracing_subscriber::{Layer, Registry};

type Log = Arc<Mutex<Vec<String>>>;

/// A layer that writes down what it is told.
#[derive(Clone)]
struct Tell {
    log: Log,
    name: &'static str,
}

impl Tell {
    fn say(&self, text: String) {
        lock(&self.log).push(format!("{}:{text}", self.name));
    }
}

fn path<S: Subscriber + for<'a> LookupSpan<'a>>(ctx: &Context<'_, S>, id: &Id) -> String {
    let names = |span: tracing_subscriber::registry::SpanRef<'_, S>| {
        span.scope().from_root().map(|span| span.name()).collect::<Vec<_>>().join(":")
    };
    ctx.span(id).map_or("(no data)".to_owned(), names)
}

impl<S: Subscriber + for<'a> LookupSpan<'a>> Layer<S> for Tell {
    fn on_new_span(&self, _: &Attributes<'_>, id: &Id, ctx: Context<'_, S>) {
        self.say(format!("new {}", path(&ctx, id)));
    }
    fn on_record(&self, id: &Id, _: &Record<'_>, ctx: Context<'_, S>) {
        self.say(format!("record {}", path(&ctx, id)));
    }
    fn on_follows_from(&self, id: &Id, follows: &Id, ctx: Context<'_, S>) {
        self.say(format!("{} follows {}", path(&ctx, id), path(&ctx, follows)));
    }
    fn on_event(&self, event: &Event<'_>, ctx: Context<'_, S>) {
        let span = ctx.event_span(event).map_or("-".to_owned(), |span| span.name().to_owned());
        let current = ctx.lookup_current().map_or("-".to_owned(), |span| span.name().to_owned());
        self.say(format!("event in {span}, current {current}"));
    }
    fn on_enter(&self, id: &Id, ctx: Context<'_, S>) {
        self.say(format!("enter {}", path(&ctx, id)));
    }
    fn on_exit(&self, id: &Id, ctx: Context<'_, S>) {
        self.say(format!("exit {}", path(&ctx, id)));
    }
    fn on_close(&self, id: Id, ctx: Context<'_, S>) {
        self.say(format!("close {}", path(&ctx, &id)));
    }
    fn on_id_change(&self, _: &Id, _: &Id, _: Context<'_, S>) {
        self.say("id change".to_owned());
    }
}

/// Says in the log when it is dropped.
struct Dropped(Log, &'static str);
impl Drop for Dropped {
    fn drop(&mut self) {
        lock(&self.0).push(format!("data of {} dropped", self.1));
    }
}

fn stack() -> (Dispatch, Log) {
    let log = Log::default();
    let layer = |name| Tell { log: log.clone(), name };
    (Dispatch::new(Registry::default().with(layer("A")).with(layer("B"))), log)
}

fn one_layer() -> (Dispatch, Log) {
    let log = Log::default();
    (Dispatch::new(Registry::default().with(Tell { log: log.clone(), name: "A" })), log)
}

fn say(question: &str, answer: impl Debug) {
    println!("{question} => {}", masked(&format!("{answer:?}")));
}

fn told(question: &str, log: &Log) {
    println!("{question} => {}", masked(&lock(log).drain(..).collect::<Vec<_>>().join(" / ")));
}

fn text_of(panic: &(dyn Any + Send)) -> String {
    let text = panic.downcast_ref::<String>().cloned();
    text.or(panic.downcast_ref::<&str>().map(|text| text.to_string())).unwrap_or_default()
}

fn caught<T: Debug>(question: &str, ask: impl FnOnce() -> T) {
    match catch_unwind(AssertUnwindSafe(ask)) {
        Ok(answer) => say(question, answer),
        Err(panic) => println!("{question} => panics: {}", masked(&text_of(&*panic)).replace('\n', " ")),
    }
}

/// Numbers of ids are nobody's matter.
fn masked(text: &str) -> String {
    let mut all = String::new();
    let mut rest = text;
    while let Some(at) = rest.find("Id(") {
        let end = rest[at..].find(')').map_or(rest.len(), |length| at + length);
        all.push_str(&rest[..at]);
        all.push_str("Id(_");
        rest = &rest[end..];
    }
    all + rest
}

fn within<T>(dispatch: &Dispatch, work: impl FnOnce() -> T) -> T {
    dispatcher::with_default(dispatch, work)
}

fn name(dispatch: &Dispatch) -> Option<&'static str> {
    dispatch.current_span().metadata().map(|metadata| metadata.name())
}

type Site = &'static Metadata<'static>;

fn closes(a: Site, b: Site, c: Site) {
    let (dispatch, log) = stack();
    within(&dispatch, || {
        let x = new(&dispatch, a);
        let y = child(&dispatch, b, &x);
        let first = dispatch.try_close(x);
        say("close: a parent with a child", first);
        say("close: its last child", dispatch.try_close(y));
    });
    told("close: child first, two layers", &log);

    let (dispatch, log) = stack();
    within(&dispatch, || {
        let x = new(&dispatch, a);
        let y = child(&dispatch, b, &x);
        let z = child(&dispatch, c, &y);
        for id in [&x, &y, &z] {
            let _closed = dispatch.try_close(id.clone());
        }
        say("close: a chain of three is gone", [&x, &y, &z].map(|id| is_there(&dispatch, id)));
    });
    told("close: a chain of three", &log);
}

fn closes_by_others(a: Site, b: Site, c: Site) {
    let (dispatch, log) = one_layer();
    within(&dispatch, || {
        let x = new(&dispatch, a);
        dispatch.enter(&x);
        say("close: an entered span", dispatch.try_close(x.clone()));
        dispatch.exit(&x);
    });
    told("close: by an exit", &log);

    let (dispatch, log) = one_layer();
    within(&dispatch, || {
        let x = new(&dispatch, a);
        let y = dispatch.clone_span(&x);
        say("close: clone_span gives the same id", x == y);
        say("close: one of two handles", dispatch.try_close(x.clone()));
        say("close: it is still there", is_there(&dispatch, &y));
        say("close: the other handle", dispatch.try_close(y));
        say("close: it is there then", is_there(&dispatch, &x));
    });
    told("close: two handles", &log);

    let (dispatch, log) = one_layer();
    within(&dispatch, || {
        let ids: Vec<Id> = [(a, "a"), (b, "b"), (c, "c")].iter().fold(Vec::new(), |mut ids, (site, name)| {
            let id = ids.last().map_or_else(|| root(&dispatch, site), |parent| child(&dispatch, site, parent));
            registry(&dispatch).span(&id).unwrap().extensions_mut().insert(Dropped(log.clone(), name));
            ids.push(id);
            ids
        });
        lock(&log).clear();
        ids.into_iter().for_each(|id| {
            dispatch.try_close(id);
        });
    });
    told("close: the order in which data is dropped", &log);
}

fn stacks(a: Site, b: Site) {
    let (dispatch, _) = one_layer();
    within(&dispatch, || {
        let (x, y) = (new(&dispatch, a), new(&dispatch, b));
        [&x, &y, &x].iter().for_each(|id| dispatch.enter(id));
        say("stack: current after a, b, a", name(&dispatch));
        dispatch.exit(&x);
        say("stack: after exit of a", name(&dispatch));
        dispatch.exit(&x);
        say("stack: after another exit of a", name(&dispatch));
        dispatch.exit(&y);
        say("stack: after exit of b", name(&dispatch));
    });

    let (dispatch, log) = one_layer();
    within(&dispatch, || {
        let x = new(&dispatch, a);
        dispatch.enter(&x);
        dispatch.enter(&x);
        dispatch.try_close(x.clone());
        dispatch.exit(&x);
        lock(&log).push("|".to_owned());
        dispatch.exit(&x);
    });
    told("stack: entered twice, left twice", &log);
}

fn stacks_out_of_order(a: Site, b: Site) {
    let (dispatch, _) = one_layer();
    within(&dispatch, || {
        let (x, y) = (new(&dispatch, a), new(&dispatch, b));
        dispatch.enter(&x);
        dispatch.enter(&y);
        dispatch.exit(&x);
        say("stack: the outer one is left first", name(&dispatch));
        let made = new(&dispatch, a);
        let parent = registry(&dispatch).span(&made).unwrap().parent().map(|parent| parent.name());
        say("stack: the parent of a span that is made then", parent);
        dispatch.exit(&y);
        say("stack: after that", name(&dispatch));
    });

    let (dispatch, _) = one_layer();
    within(&dispatch, || {
        let x = new(&dispatch, a);
        dispatch.enter(&x);
        let other = dispatch.clone();
        let seen = std::thread::spawn(move || (name(&other), other.clone())).join().unwrap().0;
        say("stack: another thread's current span", seen);
        let other = dispatch.clone();
        let y = x.clone();
        std::thread::spawn(move || other.exit(&y)).join().unwrap();
        say("stack: after an exit by another thread", name(&dispatch));
        caught("stack: exit of a span that isn't entered", || {
            let y = new(&dispatch, b);
            dispatch.exit(&y);
        });
    });
}

fn parents(a: Site, b: Site) {
    let (dispatch, _) = one_layer();
    within(&dispatch, || {
        let parents = |id: &Id| {
            let registry = registry(&dispatch);
            registry.span(id).unwrap().scope().skip(1).map(|span| span.name()).collect::<Vec<_>>()
        };
        let x = new(&dispatch, a);
        dispatch.enter(&x);
        say("parent: contextual", parents(&new(&dispatch, b)));
        say("parent: a root", parents(&root(&dispatch, b)));
        let y = root(&dispatch, b);
        say("parent: explicit", parents(&child(&dispatch, a, &y)));
        say("parent: of an explicit child of a child", parents(&child(&dispatch, a, &new(&dispatch, b))));
    });
}

fn bad_ids(a: Site) {
    let stack = Registry::default().with(Quiet);
    // With no AssertUnwindSafe: a stack can be borrowed across a panic.
    let closed = catch_unwind(|| stack.try_close(Id::from_u64(99)));
    say("bad id: try_close of a stack that is no dispatcher's is refused", closed.is_err());
    let bad = Id::from_u64(77);
    let (dispatch, log) = one_layer();
    within(&dispatch, || {
        caught("bad id: clone_span", || dispatch.clone_span(&bad));
        caught("bad id: try_close", || dispatch.try_close(bad.clone()));
        caught("bad id: enter", || dispatch.enter(&bad));
        say("bad id: the current span after it", name(&dispatch));
        caught("bad id: exit after it", || dispatch.exit(&bad));
        caught("bad id: exit after that", || dispatch.exit(&bad));
        caught("bad id: a child of it", || child(&dispatch, a, &bad));
        caught("bad id: record", || record(&dispatch, a, &bad));
        caught("bad id: follows_from", || dispatch.record_follows_from(&bad, &bad));
        caught("bad id: the greatest number", || dispatch.try_close(Id::from_u64(u64::MAX)));
        caught("bad id: the greatest number, enter", || dispatch.enter(&Id::from_u64(u64::MAX)));
        dispatch.exit(&Id::from_u64(u64::MAX - 1));
        say("bad id: look-up", registry(&dispatch).span(&bad).is_some());
        say("bad id: nothing is current", name(&dispatch));
    });
    lock(&log).clear();
}

fn closed_ids(a: Site) {
    let (dispatch, _) = one_layer();
    within(&dispatch, || {
        let x = new(&dispatch, a);
        dispatch.try_close(x.clone());
        caught("closed id: try_close", || dispatch.try_close(x.clone()));
        caught("closed id: clone_span", || dispatch.clone_span(&x));
        caught("closed id: enter", || dispatch.enter(&x));
        caught("closed id: a child of it", || child(&dispatch, a, &x));
        say("closed id: look-up", is_there(&dispatch, &x));
        let y = new(&dispatch, a);
        say("closed id: the next span has another id", x != y);
        say("closed id: the next span is not found by it", is_there(&dispatch, &x));
        caught("closed id: the next span closes by its one handle", || dispatch.try_close(y));
    });
    let (dispatch, _) = one_layer();
    within(&dispatch, || {
        let x = new(&dispatch, a);
        dispatch.enter(&x);
        dispatch.try_close(x.clone());
        dispatch.try_close(x.clone());
        say("over-released: the current span", name(&dispatch));
        caught("over-released: a new span's parent", || {
            let y = new(&dispatch, a);
            registry(&dispatch).span(&y).unwrap().parent().is_some()
        });
        caught("over-released: exit", || dispatch.exit(&x));
    });
}

fn panics(a: Site) {
    struct Closer(Dispatch, Id);
    impl Drop for Closer {
        fn drop(&mut self) {
            say("panicking: try_close of an unknown id", self.0.try_close(self.1.clone()));
        }
    }
    let (dispatch, log) = one_layer();
    let _panicked = catch_unwind(AssertUnwindSafe(|| {
        let _closer = Closer(dispatch.clone(), Id::from_u64(99));
        panic!("a program's own");
    }));
    let result = within(&dispatch, || {
        catch_unwind(AssertUnwindSafe(|| {
            let span = tracing::info_span!("p");
            let _entered = span.enter();
            panic!("a program's own");
        }))
    });
    say("panicking: inside a span", result.is_err());
    told("panicking: what the layer hears", &log);

    struct PanicsAtNew;
    impl<S: Subscriber> Layer<S> for PanicsAtNew {
        fn on_new_span(&self, _: &Attributes<'_>, _: &Id, _: Context<'_, S>) {
            panic!("a layer's own");
        }
    }
    let dispatch = Dispatch::new(Registry::default().with(PanicsAtNew));
    caught("panicking: a layer in on_new_span", || new(&dispatch, a));
    caught("panicking: and the next span", || new(&dispatch, a));
}

fn data(a: Site, b: Site) {
    let (dispatch, _) = one_layer();
    let registry = registry(&dispatch);
    let x = new(&dispatch, a);
    let span = registry.span(&x).unwrap();
    span.extensions_mut().insert(1_u8);
    caught("data: a type inserted twice", || span.extensions_mut().insert(2_u8));
    caught("data: replaced", || span.extensions_mut().replace(3_u8));
    caught("data: after the panic", || span.extensions().get::<u8>().copied());
    drop(span);

    let y = new(&dispatch, b);
    let span = registry.span(&y).unwrap();
    span.extensions_mut().insert(5_u8);
    within(&dispatch, || dispatch.try_close(y.clone()));
    say("data: a reader held over the close", span.extensions().get::<u8>().copied());
    say("data: a new look-up", registry.span(&y).is_some());
    say("data: what it says of the span", (span.name(), span.id() == y, span.parent().is_some()));
    drop(span);
    let z = new(&dispatch, a);
    say("data: of the next span", registry.span(&z).unwrap().extensions().get::<u8>().copied());

    let parent = new(&dispatch, a);
    let held = child(&dispatch, b, &parent);
    let reader = registry.span(&held).unwrap();
    within(&dispatch, || {
        dispatch.try_close(parent.clone());
        dispatch.try_close(held.clone());
    });
    say("data: a parent, while the closed child is read", registry.span(&parent).is_some());
    within(&dispatch, || drop(reader));
    say("data: the parent after that", registry.span(&parent).is_some());
}

/// What a layer can do with a closing span and its parent.
struct InClose(Log);
impl<S: Subscriber + for<'a> LookupSpan<'a>> Layer<S> for InClose {
    fn on_close(&self, id: Id, ctx: Context<'_, S>) {
        let span = ctx.span(&id).unwrap();
        let parent = span.parent().map(|parent| parent.id());
        lock(&self.0).push(format!("{}: parent there {}", span.name(), parent.is_some()));
        drop(span);
        let raw = |what: &str, ask: &dyn Fn(&Dispatch) -> bool| {
            let dispatch = dispatcher::get_default(Dispatch::clone);
            let answer = catch_unwind(AssertUnwindSafe(|| ask(&dispatch))).map_err(|panic| text_of(&*panic));
            lock(&self.0).push(format!("{what} {answer:?}"));
        };
        if let Some(parent) = parent {
            raw("clone and close of the parent", &|dispatch| {
                let twin = dispatch.clone_span(&parent);
                dispatch.try_close(twin)
            });
        }
        raw("clone of itself", &|dispatch| dispatch.clone_span(&id) == id);
    }
}

fn in_callbacks(a: Site, b: Site) {
    let log = Log::default();
    let dispatch = Dispatch::new(Registry::default().with(InClose(log.clone())));
    within(&dispatch, || {
        let x = new(&dispatch, a);
        let y = child(&dispatch, b, &x);
        dispatch.try_close(x);
        dispatch.try_close(y);
    });
    told("in on_close", &log);

    /// Makes a span in `on_close`.
    struct Makes(Log);
    impl<S: Subscriber + for<'a> LookupSpan<'a>> Layer<S> for Makes {
        fn on_close(&self, id: Id, ctx: Context<'_, S>) {
            let name = ctx.span(&id).unwrap().name();
            lock(&self.0).push(format!("close {name}"));
            if name == "a" {
                drop(tracing::info_span!("made in on_close"));
            }
        }
    }
    let log = Log::default();
    let dispatch = Dispatch::new(Registry::default().with(Makes(log.clone())));
    within(&dispatch, || {
        let x = new(&dispatch, a);
        dispatch.try_close(x);
    });
    told("in on_close: a span is made and closed", &log);
}

fn filters() {
    let log = Log::default();
    let tell = |name| Tell { log: log.clone(), name };
    let layers = Registry::default()
        .with(tell("W").with_filter(LevelFilter::WARN))
        .with(tell("E").with_filter(LevelFilter::ERROR));
    tracing::subscriber::with_default(layers, || {
        say("filters: a span that no static filter wants is disabled", tracing::info_span!("i").is_disabled());
        let warn = tracing::warn_span!("w");
        let _outer = warn.enter();
        let error = tracing::error_span!("e");
        let _inner = error.enter();
        tracing::error!("x");
        tracing::warn!("y");
        tracing::info!("z");
        say("filters: the current span", Span::current().metadata().map(|metadata| metadata.name()));
    });
    told("filters: two layers", &log);

    fn at_most_warn<S>() -> DynFilterFn<S> {
        DynFilterFn::new(|metadata: &Metadata<'_>, _: &Context<'_, S>| *metadata.level() <= Level::WARN)
    }
    let layers =
        Registry::default().with(tell("W").with_filter(at_most_warn())).with(tell("V").with_filter(at_most_warn()));
    tracing::subscriber::with_default(layers, || {
        let span = tracing::info_span!("i");
        say("filters: a span that no dynamic filter wants is disabled", span.is_disabled());
        let _entered = span.enter();
        tracing::warn!("under it");
    });
    told("filters: dynamic ones", &log);
}

fn filters_of_some_spans() {
    let log = Log::default();
    let tell = |name| Tell { log: log.clone(), name };
    let by_name = FilterFn::new(|metadata: &Metadata<'_>| metadata.name() != "left out");
    let layers = Registry::default().with(tell("F").with_filter(by_name)).with(tell("A"));
    tracing::subscriber::with_default(layers, || {
        let outer = tracing::info_span!("outer").entered();
        let inner = tracing::info_span!("left out").entered();
        tracing::info!("told");
        drop(tracing::info_span!("leaf"));
        drop(inner);
        drop(outer);
    });
    told("filters: a span in the middle is left out", &log);

    caught("filters: 65 of them", || {
        let mut registry = Registry::default();
        (0..65).map(|_| registry.register_filter()).count()
    });
}

fn macros() {
    let (dispatch, log) = one_layer();
    within(&dispatch, || {
        let first = tracing::info_span!("first", k = tracing::field::Empty);
        let second = tracing::info_span!("second");
        first.follows_from(&second);
        first.record("k", 1);
        let _entered = second.enter();
        tracing::info!(parent: &first, "in first");
        tracing::info!(parent: None, "nowhere");
        tracing::info!("in second");
        let owned = tracing::info_span!("GET /users").entered();
        drop(owned);
        say("macros: the current span", Span::current().metadata().map(|metadata| metadata.name()));
        say("macros: it is second", Span::current() == second);
        let twin = second.clone();
        say("macros: a clone's id", twin.id() == second.id());
    });
    told("macros", &log);
    let dispatch = Dispatch::new(Registry::default().with(Quiet));
    say("downcast: the registry", dispatch.downcast_ref::<Registry>().is_some());
    say("downcast: a layer", dispatch.downcast_ref::<Quiet>().is_some());
    say("hint: of a registry", Subscriber::max_level_hint(&Registry::default()));
}

fn other_defaults(a: Site, b: Site) {
    let (dispatch, log) = one_layer();
    let (x, y) = within(&dispatch, || {
        let x = new(&dispatch, a);
        let y = child(&dispatch, b, &x);
        (x, y)
    });
    dispatch.try_close(x.clone());
    dispatch.try_close(y);
    told("other default: a child closes", &log);
    say("other default: its parent is there", is_there(&dispatch, &x));

    let (dispatch, log) = one_layer();
    let x = new(&dispatch, a);
    dispatch.enter(&x);
    dispatch.exit(&x);
    say("other default: close after enter and exit", dispatch.try_close(x.clone()));
    told("other default: new, enter, exit, close", &log);

    let (dispatch, log) = one_layer();
    let x = within(&dispatch, || new(&dispatch, a));
    dispatch.enter(&x);
    dispatch.try_close(x.clone());
    dispatch.exit(&x);
    told("other default: close by an exit", &log);
    say("other default: it is there", is_there(&dispatch, &x));

    let (first, first_log) = one_layer();
    let (second, second_log) = one_layer();
    let (x, y) = (new(&first, a), new(&second, b));
    within(&second, || {
        first.enter(&x);
        first.exit(&x);
    });
    say("other default: a stranger's span is there", is_there(&second, &y));
    told("other default: what the first hears", &first_log);
    told("other default: what the second hears", &second_log);
}

/// A subscriber of one's own round another one, which is seen through it or not.
struct Around<S> {
    inner: S,
    is_seen_through: bool,
    releases: Arc<AtomicU32>,
}

impl<S: Subscriber> Subscriber for Around<S> {
    fn enabled(&self, metadata: &Metadata<'_>) -> bool {
        self.inner.enabled(metadata)
    }
    fn new_span(&self, attributes: &Attributes<'_>) -> Id {
        self.inner.new_span(attributes)
    }
    fn record(&self, id: &Id, values: &Record<'_>) {
        self.inner.record(id, values);
    }
    fn record_follows_from(&self, id: &Id, follows: &Id) {
        self.inner.record_follows_from(id, follows);
    }
    fn event(&self, event: &Event<'_>) {
        self.inner.event(event);
    }
    fn enter(&self, id: &Id) {
        self.inner.enter(id);
    }
    fn exit(&self, id: &Id) {
        self.inner.exit(id);
    }
    fn clone_span(&self, id: &Id) -> Id {
        self.inner.clone_span(id)
    }
    fn try_close(&self, id: Id) -> bool {
        self.releases.fetch_add(1, Ordering::SeqCst);
        self.inner.try_close(id)
    }
    fn current_span(&self) -> Current {
        self.inner.current_span()
    }
    unsafe fn downcast_raw(&self, id: TypeId) -> Option<*const ()> {
        if id == TypeId::of::<Self>() {
            return Some(self as *const Self as *const ());
        }
        // SAFETY: it is what the inner one answers.
        self.is_seen_through.then(|| unsafe { self.inner.downcast_raw(id) }).flatten()
    }
}

impl<'a> LookupSpan<'a> for Around<Registry> {
    type Data = <Registry as LookupSpan<'a>>::Data;
    fn span_data(&'a self, id: &Id) -> Option<Self::Data> {
        self.inner.span_data(id)
    }
}

fn wrapped(a: Site, b: Site) {
    let log = Log::default();
    let releases = Arc::new(AtomicU32::new(0));
    let inner = Registry::default().with(Tell { log: log.clone(), name: "A" });
    let dispatch = Dispatch::new(Around { inner, is_seen_through: true, releases: releases.clone() });
    within(&dispatch, || {
        let x = new(&dispatch, a);
        let y = child(&dispatch, b, &x);
        dispatch.enter(&y);
        dispatch.exit(&y);
        dispatch.try_close(x);
        dispatch.try_close(y);
    });
    told("wrapped: a parent and a child", &log);
    say("wrapped: releases that come to it", releases.load(Ordering::SeqCst));

    let inner = Around { inner: Registry::default(), is_seen_through: false, releases };
    let dispatch = Dispatch::new(inner.with(Tell { log: log.clone(), name: "A" }));
    within(&dispatch, || {
        let x = new(&dispatch, a);
        dispatch.enter(&x);
        dispatch.exit(&x);
        dispatch.try_close(x);
    });
    told("hidden: a registry that the layer can't see", &log);
}

fn main() {
    std::panic::set_hook(Box::new(|_| {}));
    let (a, b, c) = (site!("a"), site!("b"), site!("c"));
    closes(a, b, c);
    closes_by_others(a, b, c);
    stacks(a, b);
    stacks_out_of_order(a, b);
    parents(a, b);
    bad_ids(a);
    closed_ids(a);
    panics(a);
    data(a, b);
    in_callbacks(a, b);
    filters();
    filters_of_some_spans();
    macros();
    other_defaults(a, b);
    wrapped(a, b);
}
