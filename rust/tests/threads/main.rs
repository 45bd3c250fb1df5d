//! Eight threads make, share, enter and drop spans, while one more reads the lines and checks each of them against what
//! the threads did: behind one lock, and in four parts.
//!
//! Each takes 2 seconds, or as many as SPAN_REGISTRY_SECONDS says.
mod caller;
mod checker;

use caller::Caller;
use checker::{Checker, Told};
use span_registry::{retry, Drain, Layer, Registry};
use std::env;
use std::sync::mpsc::{channel, sync_channel, Sender};
use std::sync::{Arc, Barrier, Mutex, PoisonError};
use std::thread::{self, JoinHandle};
use std::time::{Duration, Instant};

const THREADS: u32 = 8;
/// How many workers each part has, of which one is no thread's.
const WORKERS: u32 = THREADS + 1;
/// Threads take the parts in turn, so those of one test begin together.
static ONE_TEST: Mutex<()> = Mutex::new(());

fn seconds() -> u64 {
    env::var("SPAN_REGISTRY_SECONDS").map_or(2, |text| text.parse().expect("SPAN_REGISTRY_SECONDS is a whole number"))
}

/// Starts the threads. Each gives the checker what it tells before its first call that has a line, and answers how many
/// handles it sent to others.
fn start(registry: &Registry, introduce: &Sender<(u32, Told)>) -> Vec<JoinHandle<u64>> {
    let until = Instant::now() + Duration::from_secs(seconds());
    let (inboxes, receivers): (Vec<_>, Vec<_>) = (0..THREADS).map(|_| sync_channel(16)).unzip();
    let all_stopped = Arc::new(Barrier::new(receivers.len()));
    let start = |(seed, inbox)| {
        let (registry, others, all_stopped) = (registry.clone(), inboxes.clone(), Arc::clone(&all_stopped));
        let introduce = introduce.clone();
        thread::spawn(move || {
            let (tell, told) = channel();
            let worker = retry(|| registry.worker()).expect("there are enough");
            introduce.send((worker, told)).expect("the checker waits");
            let home = worker / WORKERS;
            Caller::new(registry, worker, home, tell, inbox, others, seed).run(until, &all_stopped)
        })
    };
    receivers.into_iter().enumerate().map(start).collect()
}

/// Reads lines until there are no more.
fn check(mut drain: Drain, mut checker: Checker) -> Checker {
    loop {
        let (was_over, before) = (drain.is_over(), checker.lines);
        drain.lines().for_each(|line| checker.check(&line.text));
        if was_over && checker.lines == before {
            return checker.finish();
        }
    }
}

fn run(parts: u32) -> Checker {
    let builder = Registry::builder()
        .parts(parts)
        .workers(THREADS)
        .slots(4096)
        .layer(Layer::compact());
    let (registry, drain) = builder.build().expect("it fits");
    let (introduce, introduced) = channel();
    let callers = start(&registry, &introduce);
    let checking = thread::spawn(move || check(drain, Checker::new(WORKERS, introduced)));
    let sent: u64 = callers.into_iter().map(|caller| caller.join().expect("no panic")).sum();
    let counts = registry.counts();
    drop(registry);
    let seen = checking.join().expect("no panic");
    assert_eq!(
        (counts.made, counts.closed + u64::from(counts.open)),
        (seen.made, seen.made)
    );
    println!(
        "{} lines, {} spans, {sent} sent, {} closed elsewhere",
        seen.lines, seen.made, seen.closed_elsewhere
    );
    assert!(
        seen.made > 100 && sent > 10 && seen.closed_elsewhere > 10,
        "too little happened"
    );
    seen
}

#[test]
fn each_line_is_what_the_threads_did() {
    let _alone = ONE_TEST.lock().unwrap_or_else(PoisonError::into_inner);
    assert_eq!(run(1).parts(), (1, 0));
}

#[test]
fn each_line_of_four_parts_is_what_the_threads_did() {
    let _alone = ONE_TEST.lock().unwrap_or_else(PoisonError::into_inner);
    let (parts, elsewhere) = run(4).parts();
    assert!(parts == 4 && elsewhere > THREADS as usize, "{parts} parts, {elsewhere}");
}
