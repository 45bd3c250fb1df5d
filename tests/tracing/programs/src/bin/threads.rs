//! So many threads alive at once, each of which makes, enters and closes a span. It ends with 77 where there can't be so
//! many.
//!
//!     threads COUNT
use programs::Judge;
use std::sync::{Arc, Barrier};
use tracing_subscriber::prelude::*;

fn main() {
    let count: usize = std::env::args().nth(1).expect("how many threads").parse().expect("a number");
    std::panic::set_hook(Box::new(|_| {}));
    let judge = Judge::default();
    tracing_subscriber::registry().with(judge.clone()).init();
    let gate = Arc::new(Barrier::new(count));
    let mut threads = Vec::with_capacity(count);
    for at in 0..count {
        let gate = gate.clone();
        let work = move || {
            let done = std::panic::catch_unwind(|| drop(tracing::info_span!("s").entered()));
            gate.wait();
            done.is_ok()
        };
        match std::thread::Builder::new().stack_size(64 << 10).spawn(work) {
            Ok(thread) => threads.push(thread),
            Err(why) => {
                println!("there can be no more than {at} threads here: {why}");
                std::process::exit(77);
            }
        }
    }
    let done = threads.into_iter().map(|thread| thread.join().unwrap()).filter(|is_done| *is_done).count();
    let (_, open, faults) = judge.verdict();
    println!("{done} of {count} threads made a span, {open} left open, {} faults", faults.len());
    std::process::exit(i32::from(done != count || open > 0 || !faults.is_empty()));
}
