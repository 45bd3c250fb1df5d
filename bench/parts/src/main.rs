//! Million calls a second of several threads, on one of several registries.
//!
//!     parts WHOSE LAYERS THREADS TURNS
//!
//! WHOSE: package (with one lock), parts (the package in four parts), plain (the same in plain Rust, behind one
//! `Mutex`), plains (one of these for each thread), real (tracing-subscriber's `Registry`). LAYERS: 0 or 1, a compact
//! one; the real one has a layer that does nothing, since without any it keeps what closed. A round is a new span with a
//! field, an enter, an exit and a close: four calls. So many rounds are timed as the ring of one part has places for,
//! from the first thread's start to the last one's end; nobody reads meanwhile, and between two turns all is read. The
//! best turn is told.
// It is whole, though a round needs only a part.
#[allow(dead_code)]
#[rustfmt::skip]
#[path = "../../../rust/examples/border/plain/mod.rs"]
mod plain;

use plain::{Plain, PlainDrain};
use span_registry::{Layer, Level, Meta, Parent, Registry};
use std::sync::{Barrier, Mutex, PoisonError};
use std::time::{Duration, Instant};
use std::{env, process, thread};
use tracing_core::field::{FieldSet, Value};
use tracing_core::span::Attributes;
use tracing_core::{identify_callsite, metadata::Kind, Dispatch, Metadata};
use tracing_subscriber::layer::SubscriberExt;

const RING: u32 = 65_536;
const CALLS: usize = 4;
/// Of all threads together.
const ROUNDS: usize = RING as usize / CALLS;
const PARTS: u32 = 4;
const WORKERS: u32 = 16;

/// Million calls a second in the best turn.
fn measure(threads: usize, turns: usize, round: impl Fn(usize) + Sync, mut after: impl FnMut()) -> f64 {
    let rounds = ROUNDS / threads;
    let mut best = Duration::MAX;
    for _ in 0..turns {
        best = best.min(turn(threads, rounds, &round));
        after();
    }
    (rounds * threads * CALLS) as f64 / best.as_secs_f64() / 1e6
}

fn turn(threads: usize, rounds: usize, round: &(impl Fn(usize) + Sync)) -> Duration {
    let gate = Barrier::new(threads);
    let run = |number| {
        gate.wait();
        let begin = Instant::now();
        (0..rounds).for_each(|_| round(number));
        (begin, Instant::now())
    };
    let times: Vec<(Instant, Instant)> = thread::scope(|scope| {
        let run = &run;
        let all: Vec<_> = (0..threads).map(|number| scope.spawn(move || run(number))).collect();
        all.into_iter().map(|thread| thread.join().expect("no panic")).collect()
    });
    let begin = times.iter().map(|(begin, _)| *begin).min();
    let end = times.iter().map(|(_, end)| *end).max();
    end.zip(begin).map_or(Duration::MAX, |(end, begin)| end - begin)
}

fn package(parts: u32, layers: usize, threads: usize, turns: usize) -> f64 {
    let builder = Registry::builder().parts(parts).workers(WORKERS).ring(RING);
    let built = (0..layers).fold(builder, |builder, _| builder.layer(Layer::compact())).build();
    let (registry, mut drain) = built.expect("memory for it");
    let site = registry.callsite(&Meta::new(Level::Info, "app::module", "request")).expect("a good name");
    let round = |_| {
        let id = registry.new_span_at(&site, Parent::Current, &[("k", "value")]).expect("it fits");
        let id = id.expect("it is wanted");
        registry.enter(id).expect("it fits");
        registry.exit(id).expect("it fits");
        registry.try_close(id).expect("it fits");
    };
    measure(threads, turns, round, || drain.lines().for_each(drop))
}

fn new_plain(layers: usize) -> (Mutex<Plain>, PlainDrain) {
    let limits =
        plain::Limits { slots: 1024, last_generation: u32::MAX, max_count: u32::MAX, workers: WORKERS, ring: RING };
    let layer = |_| plain::Layer { is_json: false, kinds: 15, rules: vec![(String::new(), 4)] };
    let (plain, drain) = Plain::new(limits, (0..layers).map(layer).collect()).expect("few layers");
    (Mutex::new(plain), drain)
}

fn plain_round(registry: &Mutex<Plain>, worker: u32) {
    let registry = || registry.lock().unwrap_or_else(PoisonError::into_inner);
    let meta = plain::Meta { level: Level::Info as u32, name: "request", target: "app::module" };
    let fields = vec![("k".to_owned(), "value".to_owned())];
    let id = registry().new_span(worker, plain::Parent::Current, &meta, fields).expect("it fits");
    let id = id.expect("it is wanted");
    registry().enter(worker, id).expect("it fits");
    registry().exit(worker, id).expect("it fits");
    registry().try_close(worker, id).expect("it fits");
}

/// Behind so many locks, one thread after another.
fn plain(locks: usize, layers: usize, threads: usize, turns: usize) -> f64 {
    let (registries, mut drains): (Vec<_>, Vec<_>) = (0..locks).map(|_| new_plain(layers)).unzip();
    let round = |number: usize| plain_round(&registries[number % locks], number as u32);
    measure(threads, turns, round, || drains.iter_mut().for_each(|drain| drain.tell_all(|_, text| drop(text))))
}

struct Site;
static SITE: Site = Site;
impl tracing_core::Callsite for Site {
    fn set_interest(&self, _: tracing_core::Interest) {}
    fn metadata(&self) -> &Metadata<'_> {
        &SPAN
    }
}

static SPAN: Metadata<'static> = Metadata::new(
    "request",
    "app::module",
    tracing_core::Level::INFO,
    None,
    None,
    None,
    FieldSet::new(&["k"], identify_callsite!(&SITE)),
    Kind::SPAN,
);

/// Told of all, and does nothing.
struct Idle;
impl<S: tracing_core::Subscriber> tracing_subscriber::Layer<S> for Idle {}

fn real(threads: usize, turns: usize) -> f64 {
    let dispatch = Dispatch::new(tracing_subscriber::registry().with(Idle));
    // It gives entries back to the default one.
    tracing_core::dispatcher::set_global_default(dispatch.clone()).expect("there is no other one");
    let key = SPAN.fields().field("k").expect("it has the field");
    let round = |_| {
        let value: (&tracing_core::Field, Option<&dyn Value>) = (&key, Some(&"value"));
        let id = dispatch.new_span(&Attributes::new(&SPAN, &SPAN.fields().value_set(&[value])));
        dispatch.enter(&id);
        dispatch.exit(&id);
        dispatch.try_close(id);
    };
    measure(threads, turns, round, || ())
}

fn main() {
    let words: Vec<String> = env::args().skip(1).collect();
    let numbers: Vec<usize> = words.iter().skip(1).filter_map(|word| word.parse().ok()).collect();
    let (Some(whose), &[layers, threads, turns]) = (words.first(), &*numbers) else {
        eprintln!("usage: parts WHOSE LAYERS THREADS TURNS");
        process::exit(2)
    };
    let calls = match whose.as_str() {
        "package" => package(1, layers, threads, turns),
        "parts" => package(PARTS, layers, threads, turns),
        "plain" => plain(1, layers, threads, turns),
        "plains" => plain(threads, layers, threads, turns),
        _ => real(threads, turns),
    };
    println!("{calls:.3}");
}
