//! Whether a writer keeps up with one thread's calls, and how many notes a second come out of the drain alone.
//!
//! A round is a new span with a field, an enter, an exit and a close: four calls, at one callsite. Beside a writer, who
//! writes the lines to nowhere, a call that finds the ring full is refused, counted, and made again. The drain alone is
//! asked for all notes of a full ring, as structs, as one struct that each is read into, and as lines that are written to
//! nowhere, with one layer, which is told of each call. `cargo run --release --offline --example keeps_up [SECONDS]`
use span_registry::{retry, Callsite, Drain, Error, Layer, Level, Meta, Note, OnFull, Parent, Registry};
use std::io;
use std::iter;
use std::time::{Duration, Instant};

const RING: u32 = 65_536;
const CALLS: u64 = 4;
/// They fill the ring.
const ROUNDS: u64 = RING as u64 / CALLS;
/// Rounds between two looks at the clock.
const AT_ONCE: u64 = 64;
/// Others share the processor, so the best turn counts.
const TURNS: u32 = 12;

/// What one thread did beside a writer.
struct Kept {
    calls: u64,
    refused: u64,
    took: Duration,
}

/// Makes a call until the ring has a place for it, and counts it where it had none at first.
fn again<T>(refused: &mut u64, call: impl Fn() -> Result<T, Error>) -> Result<T, Error> {
    let answer = call();
    if !matches!(answer, Err(Error::Backlog)) {
        return answer;
    }
    *refused += 1;
    retry(call)
}

fn round(registry: &Registry, callsite: &Callsite, refused: &mut u64) -> Result<(), Error> {
    let make = || registry.new_span_at(callsite, Parent::Current, &[("k", "value")]);
    let id = again(refused, make)?.expect("it is wanted");
    again(refused, || registry.enter(id))?;
    again(refused, || registry.exit(id))?;
    again(refused, || registry.try_close(id)).map(drop)
}

fn callsite(registry: &Registry) -> Result<Callsite, Error> {
    registry.callsite(&Meta::new(Level::Info, "app::module", "request"))
}

fn beside_a_writer(layers: usize, time: Duration) -> Result<Kept, Box<dyn std::error::Error>> {
    let builder = Registry::builder().ring(RING).on_full(OnFull::Refuse);
    let (registry, guard) = (0..layers)
        .fold(builder, |builder, _| builder.layer(Layer::compact()))
        .spawn_writer(io::sink())?;
    let callsite = callsite(&registry)?;
    let (mut calls, mut refused) = (0, 0);
    let begin = Instant::now();
    while begin.elapsed() < time {
        (0..AT_ONCE).try_for_each(|_| round(&registry, &callsite, &mut refused))?;
        calls += AT_ONCE * CALLS;
    }
    let took = begin.elapsed();
    guard.finish()?;
    Ok(Kept { calls, refused, took })
}

/// Million notes a second out of a full ring.
fn alone(layer: Layer, mut read: impl FnMut(&mut Drain) -> u64) -> Result<f64, Error> {
    let (registry, mut drain) = Registry::builder().ring(RING).layer(layer).build()?;
    let callsite = callsite(&registry)?;
    let mut best = Duration::MAX;
    for _ in 0..TURNS {
        (0..ROUNDS).try_for_each(|_| round(&registry, &callsite, &mut 0))?;
        let begin = Instant::now();
        assert_eq!(read(&mut drain), ROUNDS * CALLS);
        best = best.min(begin.elapsed());
    }
    Ok((ROUNDS * CALLS) as f64 / best.as_secs_f64() / 1e6)
}

fn main() -> Result<(), Box<dyn std::error::Error>> {
    let seconds = std::env::args().nth(1).map_or(Ok(10.0), |word| word.parse())?;
    for layers in [0, 1] {
        let kept = beside_a_writer(layers, Duration::from_secs_f64(seconds))?;
        let million = kept.calls as f64 / kept.took.as_secs_f64() / 1e6;
        println!(
            "layers {layers}: {million:.2} million calls a second beside a writer, refused {}",
            kept.refused
        );
    }
    let notes = alone(Layer::tree(), |drain| iter::from_fn(|| drain.note()).count() as u64)?;
    println!("notes: {notes:.2} million a second out of the drain alone");
    let into = alone(Layer::tree(), |drain| {
        let mut note = Note::default();
        iter::from_fn(|| drain.note_into(&mut note).then_some(())).count() as u64
    })?;
    println!("notes_into: {into:.2} million a second out of the drain alone");
    let lines = alone(Layer::compact(), |drain| {
        drain.write_to(&mut io::sink()).unwrap_or_default()
    })?;
    println!("lines: {lines:.2} million a second out of the drain alone");
    Ok(())
}
