//! What the programs share: spans by raw calls, and a judge of closes.
use std::collections::HashMap;
use std::sync::atomic::{AtomicU64, Ordering};
use std::sync::{Arc, Mutex, MutexGuard, PoisonError};
use tracing::{Dispatch, Subscriber};
use tracing_core::field::{Field, Value};
use tracing_core::span::{Attributes, Id, Record};
use tracing_core::Metadata;
use tracing_subscriber::layer::Context;
use tracing_subscriber::registry::LookupSpan;
use tracing_subscriber::{Layer, Registry};

/// The metadata of a span of this name, with one field `k`.
#[macro_export]
macro_rules! site {
    ($name:expr) => {{
        struct Site;
        static SITE: Site = Site;
        static META: tracing_core::Metadata<'static> = tracing_core::Metadata::new(
            $name,
            "app",
            tracing_core::Level::INFO,
            None,
            None,
            None,
            tracing_core::field::FieldSet::new(&["k"], tracing_core::identify_callsite!(&SITE)),
            tracing_core::metadata::Kind::SPAN,
        );
        impl tracing_core::Callsite for Site {
            fn set_interest(&self, _: tracing_core::Interest) {}
            fn metadata(&self) -> &tracing_core::Metadata<'_> {
                &META
            }
        }
        &META
    }};
}

type Site = &'static Metadata<'static>;
const NO_VALUES: [(&Field, Option<&dyn Value>); 0] = [];

/// A new span under the current one.
pub fn new(dispatch: &Dispatch, site: Site) -> Id {
    dispatch.new_span(&Attributes::new(site, &site.fields().value_set(&NO_VALUES)))
}

/// A new root.
pub fn root(dispatch: &Dispatch, site: Site) -> Id {
    dispatch.new_span(&Attributes::new_root(site, &site.fields().value_set(&NO_VALUES)))
}

/// A new span under the one of this id.
pub fn child(dispatch: &Dispatch, site: Site, parent: &Id) -> Id {
    dispatch.new_span(&Attributes::child_of(parent.clone(), site, &site.fields().value_set(&NO_VALUES)))
}

/// Records nothing on the span.
pub fn record(dispatch: &Dispatch, site: Site, id: &Id) {
    dispatch.record(id, &Record::new(&site.fields().value_set(&NO_VALUES)));
}

pub fn registry(dispatch: &Dispatch) -> &Registry {
    dispatch.downcast_ref().expect("a registry lies below the layers")
}

/// Whether the span's data can still be looked up.
pub fn is_there(dispatch: &Dispatch, id: &Id) -> bool {
    registry(dispatch).span(id).is_some()
}

/// A layer that does nothing.
pub struct Quiet;
impl<S: Subscriber> Layer<S> for Quiet {}

pub fn lock<T>(mutex: &Mutex<T>) -> MutexGuard<'_, T> {
    mutex.lock().unwrap_or_else(PoisonError::into_inner)
}

/// The number that the judge gives each span, in the span's own data.
struct Serial(u64);

#[derive(Default)]
struct Book {
    // By serial: the parent's serial, and how many children are open.
    open: HashMap<u64, (Option<u64>, u64)>,
    faults: Vec<String>,
}

/// A layer that judges closes: each span is to be told closed once, after its children, with its data there.
#[derive(Clone, Default)]
pub struct Judge(Arc<(AtomicU64, Mutex<Book>)>);

impl<S: Subscriber + for<'a> LookupSpan<'a>> Layer<S> for Judge {
    fn on_new_span(&self, _: &Attributes<'_>, id: &Id, ctx: Context<'_, S>) {
        let serial = self.0 .0.fetch_add(1, Ordering::Relaxed);
        let span = ctx.span(id).expect("a new span is there");
        let parent = span.parent().map(|parent| parent.extensions().get::<Serial>().expect("the parent's data").0);
        span.extensions_mut().insert(Serial(serial));
        let mut book = lock(&self.0 .1);
        if let Some(parent) = parent {
            match book.open.get_mut(&parent) {
                Some(entry) => entry.1 += 1,
                None => book.faults.push(format!("{serial} is made under {parent}, which closed")),
            }
        }
        book.open.insert(serial, (parent, 0));
    }

    fn on_close(&self, id: Id, ctx: Context<'_, S>) {
        let serial = ctx.span(&id).and_then(|span| span.extensions().get::<Serial>().map(|serial| serial.0));
        let mut book = lock(&self.0 .1);
        let Some(serial) = serial else {
            book.faults.push("a span is told closed without its data".to_owned());
            return;
        };
        let Some((parent, children)) = book.open.remove(&serial) else {
            book.faults.push(format!("{serial} is told closed again"));
            return;
        };
        if children > 0 {
            book.faults.push(format!("{serial} is told closed before {children} children"));
        }
        match parent.map(|parent| (parent, book.open.get_mut(&parent))) {
            Some((_, Some(entry))) => entry.1 -= 1,
            Some((parent, None)) => book.faults.push(format!("{parent} is told closed before its child {serial}")),
            None => {}
        }
    }
}

impl Judge {
    /// How many spans were made, how many are open, and what was wrong.
    pub fn verdict(&self) -> (u64, usize, Vec<String>) {
        let book = lock(&self.0 .1);
        (self.0 .0.load(Ordering::Relaxed), book.open.len(), book.faults.clone())
    }
}

/// Numbers at random, by a seed.
pub struct Dice(u64);

impl Dice {
    pub fn new(seed: u64) -> Self {
        Dice(seed.wrapping_mul(0x9e37_79b9_7f4a_7c15) | 1)
    }

    pub fn below(&mut self, end: u64) -> u64 {
        self.0 ^= self.0 << 13;
        self.0 ^= self.0 >> 7;
        self.0 ^= self.0 << 17;
        (self.0 >> 33) % end
    }
}

/// Counts checks and prints those that fail; `end` says how many passed.
#[derive(Default)]
pub struct Checks {
    passed: u32,
    failed: u32,
}

impl Checks {
    pub fn check(&mut self, what: &str, is_right: bool) {
        if is_right {
            self.passed += 1;
        } else {
            self.failed += 1;
            println!("wrong: {what}");
        }
    }

    pub fn end(self) -> ! {
        println!("{} passed, {} failed", self.passed, self.failed);
        std::process::exit(i32::from(self.failed > 0))
    }
}
