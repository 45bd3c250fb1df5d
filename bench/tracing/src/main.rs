//! The same work on a registry of tracing-subscriber, whichever it is built with, or with the feature `proved` on the
//! proved registry of rust/tracing.
//!
//!     rounds CALLS WORK LAYER DEPTH THREADS ROUNDS TURNS
//!
//! CALLS: raw (of a Dispatch) or macros. WORK: span (new with one field, enter, exit, close), clone (clone, close),
//! event, all (span with an event in it), or shared (raw alone: a span under one that all threads share). LAYER: none
//! (one that does nothing: without any, the original keeps what closed), line (it keeps a span's fields as text, and
//! writes a line with the path for each event and close), look (it looks up the span and its parents each time), fmt
//! (fmt::layer into a sink). DEPTH: so many spans stay entered below. Prints the nanoseconds of a round by the clock,
//! from the first thread's start to the last one's end, and by its processor, in the thread that took most, each of the
//! best turn, and its allocations.
mod layers;

use std::alloc::{GlobalAlloc, Layout, System};
use std::cell::Cell;
use std::sync::{Barrier, Mutex, OnceLock};
use std::time::{Duration, Instant};
use tracing_core::field::Value;
use tracing_core::span::{Attributes, Id};
use tracing_core::{dispatcher, metadata::Kind, Dispatch, Event, Field, Level, Metadata};
#[cfg(feature = "proved")]
use tracing_span_registry::ProvedRegistry as Registry;
use tracing_subscriber::prelude::*;
#[cfg(not(feature = "proved"))]
use tracing_subscriber::Registry;

/// Counts what each thread asks for: threads that count together would wait for one another.
struct Counting;
thread_local! {
    static ASKED: Cell<u64> = const { Cell::new(0) };
}

// SAFETY: all is the system's own.
unsafe impl GlobalAlloc for Counting {
    unsafe fn alloc(&self, layout: Layout) -> *mut u8 {
        ASKED.set(ASKED.get() + 1);
        System.alloc(layout)
    }
    unsafe fn dealloc(&self, at: *mut u8, layout: Layout) {
        System.dealloc(at, layout)
    }
    unsafe fn realloc(&self, at: *mut u8, layout: Layout, size: usize) -> *mut u8 {
        ASKED.set(ASKED.get() + 1);
        System.realloc(at, layout, size)
    }
}

#[global_allocator]
static COUNTING: Counting = Counting;

struct Site;
static SITE: Site = Site;
impl tracing_core::Callsite for Site {
    fn set_interest(&self, _: tracing_core::Interest) {}
    fn metadata(&self) -> &Metadata<'_> {
        &SPAN
    }
}

macro_rules! metadata {
    ($name:expr, $kind:expr, $field:expr) => {
        Metadata::new(
            $name,
            "app",
            Level::INFO,
            None,
            None,
            None,
            tracing_core::field::FieldSet::new(&[$field], tracing_core::identify_callsite!(&SITE)),
            $kind,
        )
    };
}
static SPAN: Metadata<'static> = metadata!("request", Kind::SPAN, "key");
static EVENT: Metadata<'static> = metadata!("event", Kind::EVENT, "message");

#[repr(C)]
struct Time {
    seconds: i64,
    nanoseconds: i64,
}

extern "C" {
    fn clock_gettime(clock: i32, time: *mut Time) -> i32;
}

/// How long this thread has had a processor.
fn processor_time() -> Duration {
    const OF_THE_THREAD: i32 = 3;
    let mut time = Time { seconds: 0, nanoseconds: 0 };
    // SAFETY: the time is written to a variable of this call.
    unsafe { clock_gettime(OF_THE_THREAD, &mut time) };
    Duration::new(time.seconds as u64, time.nanoseconds as u32)
}

/// What a turn took: of the clock from the first thread's start to the last one's end, and in the thread with the most
/// the time of its processor and how much memory was asked for.
#[derive(Clone, Copy)]
struct Took {
    began: Instant,
    ended: Instant,
    processor: Duration,
    asked: u64,
}

impl Took {
    fn with(self, other: Took) -> Took {
        Took {
            began: self.began.min(other.began),
            ended: self.ended.max(other.ended),
            processor: self.processor.max(other.processor),
            asked: self.asked.max(other.asked),
        }
    }
}

struct Order {
    work: String,
    depth: usize,
    threads: usize,
    rounds: u32,
    turns: usize,
}

/// Lets each thread do its turns, all threads at once.
struct Clock<'a> {
    order: &'a Order,
    start: Barrier,
    shared: OnceLock<Id>,
    took: Mutex<Vec<Option<Took>>>,
}

impl Clock<'_> {
    fn run(&self, mut round: impl FnMut()) {
        for turn in 0..self.order.turns {
            self.start.wait();
            let (began, had, asked) = (Instant::now(), processor_time(), ASKED.get());
            for _ in 0..self.order.rounds {
                round();
            }
            let (ended, processor, asked) = (Instant::now(), processor_time() - had, ASKED.get() - asked);
            self.start.wait();
            let mine = Took { began, ended, processor, asked };
            let took = &mut self.took.lock().unwrap()[turn];
            *took = Some(took.map_or(mine, |took| took.with(mine)));
        }
    }
}

fn by_macros(clock: &Clock<'_>) {
    let under = || tracing::info_span!(target: "app", "below", key = "value").entered();
    let below: Vec<_> = (0..clock.order.depth).map(|_| under()).collect();
    let held = tracing::info_span!(target: "app", "held", key = "value");
    match clock.order.work.as_str() {
        "span" => clock.run(|| {
            let span = tracing::info_span!(target: "app", "request", key = "value");
            let _entered = span.enter();
        }),
        "clone" => clock.run(|| drop(std::hint::black_box(held.clone()))),
        "event" => clock.run(|| tracing::info!(target: "app", "told")),
        _ => clock.run(|| {
            let span = tracing::info_span!(target: "app", "request", key = "value");
            let _entered = span.enter();
            tracing::info!(target: "app", "told");
        }),
    }
    drop(held);
    below.into_iter().rev().for_each(drop);
}

fn under_shared(dispatch: &Dispatch, key: &Field, parent: &Id) {
    let value: (&Field, Option<&dyn Value>) = (key, Some(&"value"));
    let (fields, values) = (SPAN.fields(), [value]);
    let id = dispatch.new_span(&Attributes::child_of(parent.clone(), &SPAN, &fields.value_set(&values)));
    dispatch.enter(&id);
    leave(dispatch, id);
}

fn leave(dispatch: &Dispatch, id: Id) {
    dispatch.exit(&id);
    dispatch.try_close(id);
}

fn by_raw_calls(clock: &Clock<'_>, dispatch: &Dispatch) {
    let key = SPAN.fields().field("key").expect("it has the field");
    let message = EVENT.fields().field("message").expect("it has the field");
    let new = || {
        let value: (&Field, Option<&dyn Value>) = (&key, Some(&"value"));
        dispatch.new_span(&Attributes::new(&SPAN, &SPAN.fields().value_set(&[value])))
    };
    let event = || {
        let text = format_args!("told");
        let value: (&Field, Option<&dyn Value>) = (&message, Some(&text));
        dispatch.event(&Event::new(&EVENT, &EVENT.fields().value_set(&[value])));
    };
    let leave = |id: Id| leave(dispatch, id);
    let enter = || {
        let id = new();
        dispatch.enter(&id);
        id
    };
    let below: Vec<Id> = (0..clock.order.depth).map(|_| enter()).collect();
    let held = new();
    match clock.order.work.as_str() {
        "span" => clock.run(|| leave(enter())),
        "clone" => clock.run(|| {
            let twin = dispatch.clone_span(&held);
            dispatch.try_close(twin);
        }),
        "event" => clock.run(event),
        "shared" => {
            let parent = clock.shared.get_or_init(new).clone();
            clock.run(|| under_shared(dispatch, &key, &parent));
        }
        _ => clock.run(|| {
            let id = enter();
            event();
            leave(id);
        }),
    }
    dispatch.try_close(held);
    below.into_iter().rev().for_each(leave);
}

fn dispatch_with(layer: &str) -> Dispatch {
    let registry = Registry::default();
    match layer {
        "none" => Dispatch::new(registry.with(layers::Quiet)),
        "line" => Dispatch::new(registry.with(layers::Lines)),
        "look" => Dispatch::new(registry.with(layers::Looks)),
        "fmt" => Dispatch::new(registry.with(tracing_subscriber::fmt::layer().with_writer(std::io::sink))),
        _ => panic!("there is no layer {layer}"),
    }
}

fn main() {
    let words: Vec<String> = std::env::args().skip(1).collect();
    let number = |at: usize| words[at].parse::<usize>().expect("a number");
    let (depth, threads, turns) = (number(3), number(4), number(6));
    let order = Order { work: words[1].clone(), depth, threads, rounds: number(5) as u32, turns };
    let dispatch = dispatch_with(&words[2]);
    let took = Mutex::new(vec![None; order.turns]);
    let clock = Clock { order: &order, start: Barrier::new(order.threads), shared: OnceLock::new(), took };
    std::thread::scope(|scope| {
        for _ in 0..order.threads {
            scope.spawn(|| {
                dispatcher::with_default(&dispatch, || match words[0].as_str() {
                    "macros" => by_macros(&clock),
                    _ => by_raw_calls(&clock, &dispatch),
                });
            });
        }
    });
    let turns: Vec<Took> = clock.took.into_inner().unwrap().into_iter().flatten().collect();
    let rounds = f64::from(order.rounds);
    let least =
        |time: fn(&Took) -> Duration| turns.iter().map(time).min().unwrap_or_default().as_nanos() as f64 / rounds;
    let (clock, processor) = (least(|took| took.ended - took.began), least(|took| took.processor));
    let asked = turns.last().map_or(0, |took| took.asked) as f64 / rounds;
    println!("{clock:.1} ns {processor:.1} ns {asked:.2} allocations");
}
