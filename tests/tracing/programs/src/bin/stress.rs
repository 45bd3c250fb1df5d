//! Threads make, share, enter, clone and drop spans at random for so many seconds, also in the callbacks of a layer.
//! Each span has to be told closed once, after its children, with its data there, and none may be left. Once a minute
//! it says how far it is.
//!
//!     stress SECONDS [SEED [THREADS [ROUNDS]]]
use programs::{lock, Dice, Judge};
use std::cell::Cell;
use std::sync::{Arc, Mutex};
use std::time::{Duration, Instant};
use tracing::{dispatcher, Dispatch, Span, Subscriber};
use tracing_core::span::{Attributes, Id};
use tracing_core::Event;
use tracing_subscriber::filter::LevelFilter;
use tracing_subscriber::layer::Context;
use tracing_subscriber::prelude::*;
use tracing_subscriber::registry::LookupSpan;
use tracing_subscriber::{Layer, Registry};

const ROUNDS: u64 = 20_000;
const MOST: usize = 200;

type Pool = Arc<Mutex<Vec<Span>>>;

thread_local! {
    static DEPTH: Cell<u32> = const { Cell::new(0) };
    static SEED: Cell<u64> = const { Cell::new(1) };
}

fn taken(pool: &Pool, at: u64) -> Option<Span> {
    let mut pool = lock(pool);
    let length = pool.len() as u64;
    (length > 0).then(|| pool.swap_remove((at % length) as usize))
}

/// Does something with spans now and then while it is told of something.
struct Meddler(Pool);

impl Meddler {
    fn meddle(&self) {
        let depth = DEPTH.get();
        if depth > 2 {
            return;
        }
        DEPTH.set(depth + 1);
        let mut dice = Dice::new(SEED.get());
        SEED.set(SEED.get().wrapping_add(1));
        match dice.below(12) {
            0 => drop(taken(&self.0, dice.below(1000))),
            1 => {
                if let Some(span) = taken(&self.0, dice.below(1000)) {
                    let twin = span.clone();
                    lock(&self.0).extend([span, twin]);
                }
            }
            2 => drop(tracing::info_span!("in a callback").entered()),
            3 => {
                // In some callbacks the default subscriber is none: its spans are no parents.
                let span = tracing::info_span!("kept from a callback");
                if span.with_subscriber(|(_, dispatch)| dispatch.is::<Registry>()) == Some(true) {
                    lock(&self.0).push(span);
                }
            }
            _ => {}
        }
        DEPTH.set(depth);
    }
}

impl<S: Subscriber + for<'a> LookupSpan<'a>> Layer<S> for Meddler {
    fn on_new_span(&self, _: &Attributes<'_>, _: &Id, _: Context<'_, S>) {
        self.meddle();
    }
    fn on_event(&self, _: &Event<'_>, _: Context<'_, S>) {
        self.meddle();
    }
    fn on_enter(&self, _: &Id, _: Context<'_, S>) {
        self.meddle();
    }
    fn on_exit(&self, _: &Id, _: Context<'_, S>) {
        self.meddle();
    }
    fn on_close(&self, _: Id, _: Context<'_, S>) {
        self.meddle();
    }
}

fn round(dice: &mut Dice, pool: &Pool) {
    match dice.below(8) {
        0 => {
            let span = tracing::info_span!(parent: None, "root");
            lock(pool).push(span);
        }
        1 => {
            if let Some(parent) = taken(pool, dice.below(1000)) {
                let child = tracing::info_span!(parent: &parent, "child");
                lock(pool).push(child);
                if dice.below(2) == 0 {
                    lock(pool).push(parent);
                }
            }
        }
        2 => {
            if let Some(span) = taken(pool, dice.below(1000)) {
                let twin = span.clone();
                lock(pool).extend([span, twin]);
            }
        }
        3 => {
            if let Some(span) = taken(pool, dice.below(1000)) {
                span.in_scope(|| inside(dice, pool));
            }
        }
        4 => {
            // The span closes while its entry is left.
            if let Some(span) = taken(pool, dice.below(1000)) {
                drop(span.entered());
            }
        }
        _ => drop(taken(pool, dice.below(1000))),
    }
}

fn inside(dice: &mut Dice, pool: &Pool) {
    let inside = tracing::info_span!("inside");
    tracing::info!("told");
    let _entered = inside.enter();
    if dice.below(2) == 0 {
        lock(pool).push(inside.clone());
    }
}

/// Drops some spans where there are many.
fn thin_out(pool: &Pool) {
    let more: Vec<Span> = {
        let mut pool = lock(pool);
        let end = pool.len();
        if end > MOST {
            pool.split_off(end - 20)
        } else {
            Vec::new()
        }
    };
    drop(more);
}

fn turn(seed: u64, threads: u64, rounds: u64) -> (u64, usize, Vec<String>) {
    let judge = Judge::default();
    let pool = Pool::default();
    let layers = Registry::default().with(judge.clone()).with(Meddler(pool.clone())).with(LevelFilter::TRACE);
    let dispatch = Dispatch::new(layers);
    std::thread::scope(|scope| {
        for thread in 0..threads {
            let (dispatch, pool) = (&dispatch, &pool);
            scope.spawn(move || {
                dispatcher::with_default(dispatch, || {
                    SEED.set(seed ^ thread << 32);
                    let mut dice = Dice::new(seed * 64 + thread + 1);
                    (0..rounds).for_each(|_| {
                        round(&mut dice, pool);
                        thin_out(pool);
                    });
                });
            });
        }
    });
    dispatcher::with_default(&dispatch, || loop {
        // What a callback keeps while the rest is dropped is dropped, too.
        let rest = std::mem::take(&mut *lock(&pool));
        if rest.is_empty() {
            break;
        }
        drop(rest);
    });
    judge.verdict()
}

fn main() {
    let mut words = std::env::args().skip(1).map(|word| word.parse::<u64>().expect("a number"));
    let seconds = words.next().expect("how many seconds");
    let mut seed = words.next().unwrap_or(1);
    let threads = words.next().unwrap_or(4);
    let rounds = words.next().unwrap_or(ROUNDS);
    let start = Instant::now();
    let (end, mut told) = (start + Duration::from_secs(seconds), start);
    let (mut turns, mut spans, mut left, mut faults) = (0, 0, 0, Vec::new());
    while turns == 0 || Instant::now() < end {
        let (made, open, wrong) = turn(seed, threads, rounds);
        if open > 0 || !wrong.is_empty() {
            println!("seed {seed}: {open} left open, {} faults", wrong.len());
        }
        (turns, spans, left) = (turns + 1, spans + made, left + open);
        faults.extend(wrong.into_iter().take(3));
        seed += 1;
        if told.elapsed() >= Duration::from_secs(60) {
            told = Instant::now();
            println!("{} s: {turns} turns, {spans} spans, {left} left open", start.elapsed().as_secs());
        }
    }
    println!("{turns} turns, {spans} spans, {left} left open, {} faults {faults:?}", faults.len());
    std::process::exit(i32::from(left > 0 || !faults.is_empty()));
}
