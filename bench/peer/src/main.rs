//! What `tracerun` does, in plain Rust and with no proof, to be measured beside it.
mod field;
mod id;
mod json;
mod layer;
mod loops;
mod note;
mod operation;
mod outlet;
mod registry;
mod replay;
mod ring;
mod spans;
mod stack;
mod storm;
mod text;

use loops::{Made, Shape};
use outlet::{Kept, Shown, Streamed};
use registry::Refusal;
use replay::Fault;
use std::io::{self, Write};
use std::marker::PhantomData;
use std::ops::RangeInclusive;
use std::process::ExitCode;

const USAGE: &str = "usage: peer replay|replay-kept
       peer storm --workers 1..16 --rounds 1..400
       peer core|registry LAYERS FIELDS DEPTH ROUNDS
       peer bare-storm WORKERS ROUNDS
       peer chain LENGTH";

enum Order {
    Replay,
    ReplayKept,
    Storm { workers: u32, rounds: u32, layers: u32 },
    Loop(fn(&Shape) -> Result<Made, Refusal>, Shape),
    Chain { length: u32 },
}

fn order_of(words: &[String]) -> Option<Order> {
    let (first, rest) = words.split_first()?;
    match first.as_str() {
        "replay" if rest.is_empty() => Some(Order::Replay),
        "replay-kept" if rest.is_empty() => Some(Order::ReplayKept),
        "storm" => storm_of(rest),
        "core" => Some(Order::Loop(loops::on_core, shape_of(rest)?)),
        "registry" => Some(Order::Loop(loops::on_registry, shape_of(rest)?)),
        "chain" => numbers_of(rest).map(|[length]| Order::Chain { length }),
        "bare-storm" => bare_storm_of(rest),
        _ => None,
    }
}

/// The options of `storm`, each once and in its range.
fn storm_of(words: &[String]) -> Option<Order> {
    let (mut workers, mut rounds) = (None, None);
    for pair in words.chunks(2) {
        let [option, value] = pair else { return None };
        let (place, range): (_, RangeInclusive<u32>) = match option.as_str() {
            "--workers" => (&mut workers, 1..=16),
            "--rounds" => (&mut rounds, 1..=400),
            _ => return None,
        };
        let number = value.parse().ok().filter(|number| range.contains(number))?;
        if place.replace(number).is_some() {
            return None;
        }
    }
    Some(Order::Storm {
        workers: workers?,
        rounds: rounds?,
        layers: 1,
    })
}

/// The numbers that the words are, if all are.
fn numbers_of<const N: usize>(words: &[String]) -> Option<[u32; N]> {
    let numbers: Option<Vec<u32>> = words.iter().map(|word| word.parse().ok()).collect();
    numbers?.try_into().ok()
}

fn shape_of(words: &[String]) -> Option<Shape> {
    let [layers, fields, depth, rounds] = numbers_of(words)?;
    Some(Shape {
        layers,
        fields,
        depth,
        rounds,
    })
}

/// A storm without layers.
fn bare_storm_of(words: &[String]) -> Option<Order> {
    let [workers, rounds] = numbers_of(words)?;
    Some(Order::Storm {
        workers,
        rounds,
        layers: 0,
    })
}

fn fail(status: u8, text: impl std::fmt::Display) -> ExitCode {
    eprintln!("{text}");
    ExitCode::from(status)
}

fn run_replay<O: Shown>(outlets: PhantomData<O>) -> ExitCode {
    match replay::replay(io::stdin().lock(), io::stdout().lock(), outlets) {
        Ok(()) => ExitCode::SUCCESS,
        Err(fault @ Fault::Script(..)) => fail(1, fault),
        Err(fault) => fail(3, fault),
    }
}

fn tell_loop(ended: Result<Made, Refusal>) -> ExitCode {
    match ended {
        Ok(Made { calls, lines }) => {
            println!("{calls} calls, {lines} lines");
            ExitCode::SUCCESS
        }
        Err(refusal) => fail(3, format_args!("refused: {}", refusal.text())),
    }
}

fn run_storm(workers: u32, rounds: u32, layers: u32) -> ExitCode {
    let report = match storm::storm(workers, rounds, layers) {
        Ok(report) => report,
        Err(refusal) => return fail(3, format_args!("refused: {}", refusal.text())),
    };
    let mut output = io::stdout().lock();
    match write!(output, "{report}").and_then(|()| output.flush()) {
        Ok(()) => ExitCode::SUCCESS,
        Err(_) => fail(3, Fault::Write),
    }
}

fn main() -> ExitCode {
    let words: Option<Vec<String>> = std::env::args_os()
        .skip(1)
        .map(|word| word.into_string().ok())
        .collect();
    match words.as_deref().and_then(order_of) {
        Some(Order::Replay) => run_replay(PhantomData::<Streamed>),
        Some(Order::ReplayKept) => run_replay(PhantomData::<Kept>),
        Some(Order::Storm {
            workers,
            rounds,
            layers,
        }) => run_storm(workers, rounds, layers),
        Some(Order::Loop(run, shape)) => tell_loop(run(&shape)),
        Some(Order::Chain { length }) => tell_loop(loops::chain(length)),
        None => fail(2, USAGE),
    }
}
