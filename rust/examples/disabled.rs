//! What a span and an event cost that no layer wants, in nanoseconds: the best of some turns of so many calls, less an
//! empty one. `cargo run --release --offline --example disabled [CALLS]`
use span_registry::{event, span, Error, Layer, Level, Registry};
use std::env;
use std::hint::black_box;
use std::time::Instant;

const CALLS: u32 = 20_000_000;
const TURNS: u32 = 9;

fn best(calls: u32, call: impl Fn(u32)) -> f64 {
    let turn = |_| {
        let begin = Instant::now();
        (0..calls).for_each(|number| call(black_box(number)));
        begin.elapsed().as_secs_f64() * 1e9 / f64::from(calls)
    };
    (0..TURNS).map(turn).fold(f64::INFINITY, f64::min)
}

fn main() -> Result<(), Error> {
    let calls = env::args()
        .nth(1)
        .map_or(CALLS, |word| word.parse().expect("a number of calls"));
    let layer = Layer::compact().with_targets("error,app::db=warn".parse().expect("targets"));
    let (registry, _drain) = Registry::builder().layer(layer).build()?;
    let registry = black_box(&registry);
    let empty = best(calls, |_| ());
    let of = |what: &str, nanoseconds: f64| println!("{what}: {:.2} ns", nanoseconds - empty);
    of(
        "event!",
        best(calls, |number| {
            event!(registry, Level::Info, { n = number }, "m {number}")
        }),
    );
    of(
        "span!",
        best(calls, |number| drop(span!(registry, Level::Info, "a", n = number))),
    );
    of(
        "enabled",
        best(calls, |_| {
            black_box(registry.enabled(black_box(Level::Info), black_box("app::db::pool")));
        }),
    );
    of(
        "max_level",
        best(calls, |_| {
            black_box(registry.max_level());
        }),
    );
    assert_eq!(registry.counts().calls, 0);
    Ok(())
}
