//! A chain of so many spans, each under the one before it, that one call closes whole.
//!
//!     chain SPANS
use programs::{child, is_there, root, site, Judge};
use tracing::{dispatcher, Dispatch};
use tracing_subscriber::prelude::*;
use tracing_subscriber::Registry;

/// The stack of the thread that closes it, whatever a main thread has here.
const STACK: usize = 8 << 20;

fn main() {
    let spans: u64 = std::env::args().nth(1).expect("how many spans").parse().expect("a number");
    let thread = std::thread::Builder::new().stack_size(STACK).spawn(move || close(spans)).expect("a thread");
    std::process::exit(i32::from(!thread.join().expect("it ends well")));
}

/// Whether all of so many close.
fn close(spans: u64) -> bool {
    let judge = Judge::default();
    let dispatch = Dispatch::new(Registry::default().with(judge.clone()));
    dispatcher::with_default(&dispatch, || {
        let first = root(&dispatch, site!("first"));
        let mut last = first.clone();
        for _ in 1..spans {
            let next = child(&dispatch, site!("next"), &last);
            dispatch.try_close(last);
            last = next;
        }
        dispatch.try_close(last);
        let (made, open, faults) = judge.verdict();
        println!(
            "{made} spans, {open} left open, {} faults, the first is there: {}",
            faults.len(),
            is_there(&dispatch, &first)
        );
        open == 0 && faults.is_empty() && !is_there(&dispatch, &first)
    })
}
