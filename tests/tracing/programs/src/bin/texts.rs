//! The texts that `fmt` writes in several formats, under `EnvFilter`, per-layer filters, `reload` and records of
//! `log`: the same calls each time, with ids and times left out. Both registries have to write the same bytes.
use programs::lock;
use std::io::Write;
use std::sync::{Arc, Mutex};
use tracing::{dispatcher, Dispatch, Level};
use tracing_subscriber::filter::{filter_fn, EnvFilter, LevelFilter, Targets};
use tracing_subscriber::fmt::format::FmtSpan;
use tracing_subscriber::fmt::MakeWriter;
use tracing_subscriber::prelude::*;
use tracing_subscriber::{fmt, registry, reload};

#[derive(Clone, Default)]
struct Sink(Arc<Mutex<Vec<u8>>>);
impl Write for Sink {
    fn write(&mut self, bytes: &[u8]) -> std::io::Result<usize> {
        lock(&self.0).extend_from_slice(bytes);
        Ok(bytes.len())
    }
    fn flush(&mut self) -> std::io::Result<()> {
        Ok(())
    }
}
impl<'a> MakeWriter<'a> for Sink {
    type Writer = Sink;
    fn make_writer(&'a self) -> Sink {
        self.clone()
    }
}

/// The times that a close tells are no text of the calls.
fn without_times(text: &str) -> String {
    let mut words = Vec::new();
    for word in text.split(' ') {
        match word.split_once("time.busy=").or_else(|| word.split_once("time.idle=")) {
            Some(_) => words.push("time=_"),
            None => words.push(word),
        }
    }
    words.join(" ")
}

#[derive(Debug)]
#[allow(dead_code)]
struct Point {
    x: i32,
    y: i32,
}

/// A layer that writes text, of whatever stack it is asked for.
macro_rules! layer {
    () => {
        fmt::layer().without_time().with_ansi(false)
    };
}

fn calls() {
    let outer = tracing::info_span!("outer", peer = "10.0.0.1", count = tracing::field::Empty, text = "two\nlines");
    let entered = outer.enter();
    outer.record("count", 7);
    tracing::info!(answer = 42, "in outer");
    let inner = tracing::debug_span!(target: "app::db", "GET /users", point = ?Point { x: 1, y: -2 });
    inner.follows_from(&outer);
    inner.in_scope(|| {
        tracing::warn!(target: "app::db", rows = 3_u64, ratio = 0.5, is_slow = true, "slow {}", "query");
        tracing::trace!("hidden");
        let none = tracing::error_span!(parent: None, "root");
        none.in_scope(|| tracing::error!(error = %std::fmt::Error, "failed"));
        tracing::info!(parent: &none, "of root");
        tracing::info!(parent: None, "of nobody");
    });
    let twin = inner.clone();
    drop(inner);
    tracing::event!(Level::INFO, ?twin, "twin");
    drop(entered);
    drop(outer);
    log::warn!(target: "app::db", "a record of log in {}", "nothing");
    twin.in_scope(|| log::info!("a record of log in a span"));
    drop(twin);
    let result: Result<(), _> = std::panic::catch_unwind(|| {
        let span = tracing::info_span!("panics");
        let _entered = span.enter();
        panic!("a program's own");
    });
    tracing::info!(panicked = result.is_err(), "after it");
}

fn show(name: &str, sink: &Sink, dispatch: Dispatch) {
    dispatcher::with_default(&dispatch, || {
        calls();
        std::thread::scope(|scope| {
            let dispatch = dispatch.clone();
            scope.spawn(move || dispatcher::with_default(&dispatch, calls));
        });
    });
    let text = String::from_utf8(std::mem::take(&mut *lock(&sink.0))).expect("it is UTF-8");
    let lines: Vec<String> = text.lines().map(without_times).map(|line| masked(&line)).collect();
    println!("## {name}: {} lines\n{}", lines.len(), lines.join("\n"));
}

/// Ids, where a value's own text has one.
fn masked(line: &str) -> String {
    let mut text = String::new();
    let mut rest = line;
    while let Some(at) = rest.find("Id(") {
        let end = rest[at..].find(')').map_or(rest.len(), |length| at + length);
        text.push_str(&rest[..at]);
        text.push_str("Id(_");
        rest = &rest[end..];
    }
    text + rest
}

fn main() {
    std::panic::set_hook(Box::new(|_| {}));
    let _ = tracing_log::LogTracer::init();
    log::set_max_level(log::LevelFilter::Trace);
    let sink = Sink::default();

    let plain = layer!().with_writer(sink.clone()).with_span_events(FmtSpan::FULL);
    show("full, all span events", &sink, registry().with(plain).with(LevelFilter::TRACE).into());
    let compact = layer!().compact().with_writer(sink.clone()).with_span_events(FmtSpan::NEW | FmtSpan::CLOSE);
    show("compact", &sink, registry().with(compact).into());
    let pretty = layer!().pretty().with_writer(sink.clone()).with_span_events(FmtSpan::ACTIVE);
    show("pretty", &sink, registry().with(pretty).into());
    let json =
        fmt::layer().json().without_time().with_writer(sink.clone()).with_current_span(true).with_span_list(true);
    show("json", &sink, registry().with(json).into());
    let flat = fmt::layer().json().flatten_event(true).without_time().with_writer(sink.clone());
    show("json, flat", &sink, registry().with(flat).into());

    for directives in
        ["info", "warn,app::db=debug", "[outer]=trace", "[{peer=10.0.0.1}]=debug,error", "off", "texts=info"]
    {
        let own = layer!().with_writer(sink.clone());
        show(&format!("EnvFilter {directives}"), &sink, registry().with(EnvFilter::new(directives)).with(own).into());
        let own = layer!().with_writer(sink.clone()).with_filter(EnvFilter::new(directives));
        show(&format!("EnvFilter {directives} of one layer"), &sink, registry().with(own).into());
    }
    let first = layer!().with_writer(sink.clone()).with_filter(LevelFilter::WARN);
    let second =
        layer!().compact().with_writer(sink.clone()).with_filter(Targets::new().with_target("app", Level::DEBUG));
    let third = layer!().with_target(false).with_writer(sink.clone()).with_filter(filter_fn(|meta| meta.is_event()));
    show("three layers with filters", &sink, registry().with(first).with(second).with(third).into());
    let inner = layer!().with_writer(sink.clone()).with_span_events(FmtSpan::FULL);
    let inner = inner.with_filter(filter_fn(|meta| meta.name() != "GET /users"));
    show("a filter that leaves a span out", &sink, registry().with(inner).into());

    let (filter, handle) = reload::Layer::new(LevelFilter::ERROR);
    let stack: Dispatch = registry().with(layer!().with_writer(sink.clone())).with(filter).into();
    show("reload, before", &sink, stack.clone());
    handle.modify(|filter| *filter = LevelFilter::DEBUG).expect("the stack is there");
    show("reload, after", &sink, stack);
    let own = layer!().with_writer(sink.clone()).with_filter(LevelFilter::ERROR);
    let (own, handle) = reload::Layer::new(own);
    let stack: Dispatch = registry().with(own).into();
    handle.modify(|own| *own.filter_mut() = LevelFilter::INFO).expect("the stack is there");
    show("reload of a layer with a filter", &sink, stack);

    let whole = fmt::Subscriber::builder().without_time().with_ansi(false).with_writer(sink.clone());
    show("fmt()", &sink, whole.with_max_level(LevelFilter::TRACE).with_span_events(FmtSpan::FULL).finish().into());
    let boxed: Vec<Box<dyn tracing_subscriber::Layer<_> + Send + Sync>> =
        vec![layer!().with_writer(sink.clone()).boxed(), layer!().compact().with_writer(sink.clone()).boxed()];
    show("a list of layers", &sink, registry().with(boxed).with(None::<LevelFilter>).into());
}
