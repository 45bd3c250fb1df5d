//! Calls a second of several threads, beside the same registry in plain Rust behind one `Mutex`, in one run.
//!
//! A round is a new span with a field, an enter, an exit and a close: four calls. Where nobody reads, so many rounds
//! are timed as the ring has places for, and it is emptied between two turns. Beside a writer, who writes the lines to
//! nowhere, a call that finds the ring full is made again. `cargo run --release --offline --example throughput`
//!
//! The plain registry does less than the package: it is told which worker calls, its ids don't say whose they are, it
//! keeps no room for what drops may come to owe, and memory that is refused ends the process. It does more in that it
//! is given a span's name and target, which it checks and copies each time, where the package has a callsite, and that
//! it clones a closing span's fields: plain Rust that does neither makes more calls than the package where there is no
//! layer. Both are behind the standard `Mutex`, which the package tries for a fraction of a millisecond before a thread
//! sleeps.
#[path = "border/plain/mod.rs"]
// It is whole, though a round needs only a part.
#[allow(dead_code)]
mod plain;

use plain::{Plain, PlainDrain};
use span_registry::{retry, Callsite, Drain, Error, Layer, Level, Meta, Parent, Registry};
use std::io;
use std::sync::atomic::{AtomicBool, Ordering};
use std::sync::{Barrier, Mutex, PoisonError};
use std::thread;
use std::time::{Duration, Instant};

const RING: u32 = 65_536;
const CALLS: usize = 4;
/// Rounds of a turn, of all threads together: four threads' fill the ring.
const ROUNDS: usize = RING as usize / CALLS;
/// Others share the processor, so the best turn counts.
const TURNS: usize = 12;
const WORKERS: u32 = 16;

/// How the lines leave.
#[derive(Clone, Copy)]
enum Reading {
    Nobody,
    Writer,
}

/// Million calls a second in the best turn. Between two turns `after` is called.
fn measure(threads: usize, round: impl Fn(usize) + Sync, mut after: impl FnMut()) -> f64 {
    let rounds = ROUNDS / threads;
    let mut best = Duration::MAX;
    for _ in 0..TURNS {
        best = best.min(turn(threads, rounds, &round));
        after();
    }
    (rounds * threads * CALLS) as f64 / best.as_secs_f64() / 1e6
}

/// From the first thread's first round to the last one's last.
fn turn(threads: usize, rounds: usize, round: &(impl Fn(usize) + Sync)) -> Duration {
    let gate = Barrier::new(threads);
    let run = |number| {
        gate.wait();
        let begin = Instant::now();
        (0..rounds).for_each(|_| round(number));
        (begin, Instant::now())
    };
    let times: Vec<(Instant, Instant)> = thread::scope(|scope| {
        let run = &run;
        let all: Vec<_> = (0..threads).map(|number| scope.spawn(move || run(number))).collect();
        let ended = all.into_iter().map(|thread| thread.join().expect("no panic"));
        ended.collect()
    });
    let begin = times.iter().map(|(begin, _)| *begin).min();
    let end = times.iter().map(|(_, end)| *end).max();
    end.zip(begin).map_or(Duration::MAX, |(end, begin)| end - begin)
}

/// As the package waits: other threads run, and then half a millisecond passes.
fn wait(turn: u32) {
    if turn < 64 {
        thread::yield_now();
    } else {
        thread::sleep(Duration::from_micros(500));
    }
}

fn package(layers: usize) -> Result<(Registry, Drain, Callsite), Error> {
    let builder = Registry::builder().workers(WORKERS).ring(RING);
    let (registry, drain) = (0..layers)
        .fold(builder, |builder, _| builder.layer(Layer::compact()))
        .build()?;
    let callsite = registry.callsite(&Meta::new(Level::Info, "app::module", "request"))?;
    Ok((registry, drain, callsite))
}

fn package_round(registry: &Registry, callsite: &Callsite) -> Result<(), Error> {
    let make = || registry.new_span_at(callsite, Parent::Current, &[("k", "value")]);
    let id = retry(make)?.expect("it is wanted");
    retry(|| registry.enter(id))?;
    retry(|| registry.exit(id))?;
    retry(|| registry.try_close(id)).map(drop)
}

fn of_package(layers: usize, threads: usize, reading: Reading) -> Result<f64, Error> {
    let (registry, mut drain, callsite) = package(layers)?;
    let round = |_| package_round(&registry, &callsite).expect("nothing but the ring is full");
    if let Reading::Nobody = reading {
        return Ok(measure(threads, round, || drain.lines().for_each(drop)));
    }
    let stop = AtomicBool::new(false);
    Ok(thread::scope(|scope| {
        scope.spawn(|| drain.run_until(&mut io::sink(), &stop));
        let calls = measure(threads, round, || ());
        stop.store(true, Ordering::Release);
        calls
    }))
}

fn plain(layers: usize) -> (Plain, PlainDrain) {
    let limits = plain::Limits {
        slots: 1024,
        last_generation: u32::MAX,
        max_count: u32::MAX,
        workers: WORKERS,
        ring: RING,
    };
    let layer = |_| plain::Layer {
        is_json: false,
        kinds: 15,
        rules: vec![(String::new(), 4)],
    };
    Plain::new(limits, (0..layers).map(layer).collect()).expect("few layers")
}

/// Makes a call until the ring has a place for it. What it is given is made before the lock is taken.
fn again<G, T>(
    registry: &Mutex<Plain>,
    give: impl Fn() -> G,
    call: impl Fn(&mut Plain, G) -> Result<T, plain::Refusal>,
) -> T {
    let mut turn = 0;
    loop {
        let given = give();
        let answer = call(&mut registry.lock().unwrap_or_else(PoisonError::into_inner), given);
        match answer {
            Err(plain::BACKLOG) => wait(turn),
            answer => return answer.expect("nothing but the ring is full"),
        }
        turn += 1;
    }
}

fn plain_round(registry: &Mutex<Plain>, worker: u32) {
    let meta = plain::Meta {
        level: Level::Info as u32,
        name: "request",
        target: "app::module",
    };
    let fields = || vec![("k".to_owned(), "value".to_owned())];
    let id = again(registry, fields, |registry, fields| {
        registry.new_span(worker, plain::Parent::Current, &meta, fields)
    });
    let (id, nothing) = (id.expect("it is wanted"), || ());
    again(registry, nothing, |registry, ()| registry.enter(worker, id));
    again(registry, nothing, |registry, ()| registry.exit(worker, id));
    again(registry, nothing, |registry, ()| registry.try_close(worker, id));
}

fn of_plain(layers: usize, threads: usize, reading: Reading) -> f64 {
    let (registry, mut drain) = plain(layers);
    let registry = Mutex::new(registry);
    let round = |worker| plain_round(&registry, worker as u32);
    if let Reading::Nobody = reading {
        return measure(threads, round, || drain.tell_all(|_, text| drop(text)));
    }
    let stop = AtomicBool::new(false);
    thread::scope(|scope| {
        scope.spawn(|| write_plain(&mut drain, &stop));
        let calls = measure(threads, round, || ());
        stop.store(true, Ordering::Release);
        calls
    })
}

fn write_plain(drain: &mut PlainDrain, stop: &AtomicBool) {
    let mut idle = 0;
    while !stop.load(Ordering::Acquire) {
        let has_read = drain.tell_one(&mut |_, text: String| drop(text));
        idle = if has_read { 0 } else { idle + 1 };
        if idle > 0 {
            wait(idle);
        }
    }
}

fn main() -> Result<(), Error> {
    println!("million calls a second, in the best of {TURNS} turns of {ROUNDS} rounds");
    println!("layers threads reading   package  plain Rust  package / plain Rust");
    for layers in [0, 1] {
        for (reading, name) in [(Reading::Nobody, "nobody"), (Reading::Writer, "a writer")] {
            for threads in [1, 2, 4] {
                let package = of_package(layers, threads, reading)?;
                let plain = of_plain(layers, threads, reading);
                let ratio = package / plain;
                println!("{layers:>6} {threads:>7} {name:<8} {package:>8.2}  {plain:>10.2}  {ratio:>20.2}");
            }
        }
    }
    Ok(())
}
