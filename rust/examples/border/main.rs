//! What a span costs over the border to the proved library, and the same in plain Rust.
//!
//! A round is a new span, an enter, an exit and a close, in one thread, behind a lock. Reading the lines is measured
//! apart. `cargo run --release --offline --example border`
// It is whole, though a round needs only a part.
#[allow(dead_code)]
mod plain;

use plain::{Plain, PlainDrain};
use span_registry::{Drain, Error, Fields, Id, Layer, Level, Meta, Parent, Registry};
use std::cell::RefCell;
use std::ops::DerefMut;
use std::sync::Mutex;
use std::time::{Duration, Instant};

/// Few enough that most turns are done in one go, though others share the processor.
const ROUNDS: u32 = 250;
const TURNS: u32 = 800;
/// Just places enough for a turn, so that a ring's memory stays near the processor.
const RING: u32 = 1024;
const META: Meta<'static> = Meta {
    level: Level::Info,
    target: "app::module",
    name: "request",
};
const NONE: Fields<'static> = &[];
const ONE: Fields<'static> = &[("k", "value")];

/// Nanoseconds of a round, and of reading its lines.
struct Cost {
    round: f64,
    reading: f64,
}

/// Turns of rounds with the reading between them; the best turn counts, since others share the processor.
fn measure(mut rounds: impl FnMut(), mut read: impl FnMut()) -> Cost {
    let mut best = [Duration::MAX; 2];
    for _ in 0..TURNS {
        for (best, part) in best.iter_mut().zip([&mut rounds as &mut dyn FnMut(), &mut read]) {
            let start = Instant::now();
            part();
            *best = start.elapsed().min(*best);
        }
    }
    let [round, reading] = best.map(|best| best.as_nanos() as f64 / f64::from(ROUNDS));
    Cost { round, reading }
}

fn registry(layers: usize) -> Result<(Registry, Drain), Error> {
    let layer = |builder: span_registry::RegistryBuilder, _| builder.layer(Layer::compact());
    (0..layers)
        .fold(Registry::builder().workers(1).ring(RING), layer)
        .build()
}

/// Rounds by ids of the spans that `make` makes.
fn rounds_of(registry: &Registry, mut drain: Drain, make: impl Fn(&Registry) -> Result<Option<Id>, Error>) -> Cost {
    let round = || -> Result<(), Error> {
        let id = make(registry)?.expect("it is wanted");
        registry.enter(id)?;
        registry.exit(id)?;
        registry.try_close(id).map(drop)
    };
    let rounds = || (0..ROUNDS).for_each(|_| round().expect("the ring has place"));
    measure(rounds, || drain.lines().for_each(drop))
}

fn by_ids(layers: usize, fields: Fields<'_>) -> Result<Cost, Error> {
    let (registry, drain) = registry(layers)?;
    Ok(rounds_of(&registry, drain, |registry| {
        registry.new_span(&META, Parent::Current, fields)
    }))
}

fn by_callsite(layers: usize, fields: Fields<'_>) -> Result<Cost, Error> {
    let (registry, drain) = registry(layers)?;
    let callsite = registry.callsite(&META)?;
    Ok(rounds_of(&registry, drain, |registry| {
        registry.new_span_at(&callsite, Parent::Current, fields)
    }))
}

fn by_spans(layers: usize) -> Result<Cost, Error> {
    let (registry, mut drain) = registry(layers)?;
    let round = || registry.span(&META, Parent::Current, ONE)?.try_in_scope(|| ());
    let rounds = || (0..ROUNDS).for_each(|_| round().expect("the ring has place"));
    Ok(measure(rounds, || drain.lines().for_each(drop)))
}

fn plain(layers: usize) -> (Plain, PlainDrain) {
    let limits = plain::Limits {
        slots: 1024,
        last_generation: u32::MAX,
        max_count: u32::MAX,
        workers: 1,
        ring: RING,
    };
    let layer = |_| plain::Layer {
        is_json: false,
        kinds: 15,
        rules: vec![(String::new(), 4)],
    };
    Plain::new(limits, (0..layers).map(layer).collect()).expect("few layers")
}

/// Rounds in plain Rust, each call through what `lend` gives.
fn plain_rounds<L: DerefMut<Target = Plain>>(mut drain: PlainDrain, fields: Fields<'_>, lend: impl Fn() -> L) -> Cost {
    let meta = plain::Meta {
        level: META.level as u32,
        name: META.name,
        target: META.target,
    };
    let owned = |&(key, value): &(&str, &str)| (key.to_owned(), value.to_owned());
    let round = || -> Result<(), plain::Refusal> {
        let fields = fields.iter().map(owned).collect();
        let id = lend()
            .new_span(0, plain::Parent::Current, &meta, fields)?
            .expect("it is wanted");
        lend().enter(0, id)?;
        lend().exit(0, id)?;
        lend().try_close(0, id).map(drop)
    };
    let rounds = || (0..ROUNDS).for_each(|_| round().expect("the channel has place"));
    measure(rounds, || drain.tell_all(|_, text| drop(text)))
}

fn in_plain_rust(layers: usize, fields: Fields<'_>) -> Cost {
    let (registry, drain) = plain(layers);
    let registry = Mutex::new(registry);
    plain_rounds(drain, fields, || registry.lock().expect("no panic"))
}

fn in_plain_rust_without_lock(layers: usize, fields: Fields<'_>) -> Cost {
    let (registry, drain) = plain(layers);
    let registry = RefCell::new(registry);
    plain_rounds(drain, fields, || registry.borrow_mut())
}

/// A call that looks at the core and changes nothing: the lock, and the way over the border and back.
fn a_look() -> Result<f64, Error> {
    let (registry, _drain) = registry(0)?;
    registry.worker()?;
    let rounds = || (0..ROUNDS).for_each(|_| assert_eq!(registry.current_span(), Ok(None)));
    Ok(measure(rounds, || ()).round)
}

fn main() -> Result<(), Error> {
    println!("ns of a round of new, enter, exit, close + ns of reading its lines, the best of {TURNS} x {ROUNDS}");
    for layers in [0, 1, 8] {
        let costs = [
            ("proved, by ids", by_ids(layers, ONE)?),
            ("proved, by callsite", by_callsite(layers, ONE)?),
            ("proved, by spans", by_spans(layers)?),
            ("plain Rust", in_plain_rust(layers, ONE)),
            ("no field, by ids", by_ids(layers, NONE)?),
            ("no field, by callsite", by_callsite(layers, NONE)?),
            ("no field, plain Rust", in_plain_rust(layers, NONE)),
            ("the same without a lock", in_plain_rust_without_lock(layers, NONE)),
        ];
        for (name, cost) in costs {
            println!(
                "{layers} layers, {name:<23} {:>7.0} + {:>6.0}",
                cost.round, cost.reading
            );
        }
    }
    println!("a call that changes nothing       {:>7.0}", a_look()?);
    Ok(())
}
