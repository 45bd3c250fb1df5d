//! That memory stays level however many calls come. On Linux, where a process can read how much it has.
//!
//! Ten million calls: `cargo test --release --offline --test memory -- --ignored`.
#![cfg(target_os = "linux")]
mod common;

use common::{assert_empty, compact, info, Ids};
use span_registry::{Drain, Error, Layer, Parent, Registry};
use std::fs;
use std::sync::atomic::{AtomicU64, Ordering};
use std::sync::{Arc, Barrier, Mutex, MutexGuard, PoisonError};
use std::thread;

/// Only one test at a time, since memory is the whole process's.
fn alone() -> MutexGuard<'static, ()> {
    static ALONE: Mutex<()> = Mutex::new(());
    ALONE.lock().unwrap_or_else(PoisonError::into_inner)
}

const PAGE: u64 = 4096;
const MAY_GROW: u64 = 1 << 20;

/// Bytes of memory that the process has now.
fn resident() -> u64 {
    let text = fs::read_to_string("/proc/self/statm").expect("Linux has it");
    let pages: u64 = text
        .split(' ')
        .nth(1)
        .expect("the second number")
        .parse()
        .expect("a number");
    pages * PAGE
}

/// Makes the call again once the lines were read.
fn reading<T>(drain: &mut Drain, mut call: impl FnMut() -> Result<T, Error>) -> T {
    loop {
        match call() {
            Err(Error::Backlog) => assert!(drain.line().is_some()),
            result => return result.expect("not refused"),
        }
    }
}

/// Eight calls, some of which come to be owed, since the ring is small.
fn round(registry: &Registry, drain: &mut Drain) {
    let outer = reading(drain, || registry.span(&info("outer"), Parent::Root, &[("k", "v")]));
    let _in_outer = reading(drain, || outer.try_enter());
    let inner = reading(drain, || registry.span(&info("inner"), Parent::Current, &[]));
    reading(drain, || inner.try_record(&[("key", "value")]));
    for span in [&outer, &inner] {
        assert_eq!(span.extensions().insert(Arc::new([7_u8; 200])), Ok(true));
    }
    reading(drain, || Ids(registry.clone()).event("message"));
    let _shared = inner.clone();
    drop(reading(drain, || outer.try_clone()));
}

fn memory_stays_level(calls: u64) {
    let _alone = alone();
    let (registry, mut drain) = compact().ring(16).layer(Layer::json()).build().expect("it fits");
    while registry.counts().calls < calls / 10 {
        round(&registry, &mut drain);
    }
    let before = resident();
    while registry.counts().calls < calls {
        round(&registry, &mut drain);
    }
    let after = resident();
    assert!(
        after < before + MAY_GROW,
        "{before} bytes after a tenth of {calls} calls, {after} at the end"
    );
    drain.lines().for_each(drop);
    assert_empty(&registry);
}

#[test]
fn memory_stays_level_over_200_000_calls() {
    memory_stays_level(200_000);
}

#[test]
#[ignore = "it takes more than 10 seconds"]
fn memory_stays_level_over_ten_million_calls() {
    memory_stays_level(10_000_000);
}

#[test]
fn memory_stays_level_while_four_threads_call_four_parts() {
    const ROUNDS: u64 = 20_000;
    let _alone = alone();
    let builder = compact().parts(4).layer(Layer::json()).ring(64);
    let (registry, guard) = builder.spawn_writer(std::io::sink()).expect("it fits");
    let (gate, before) = (Barrier::new(4), AtomicU64::new(0));
    let call = || {
        for number in 0..ROUNDS {
            if number == ROUNDS / 10 && gate.wait().is_leader() {
                before.store(resident(), Ordering::Relaxed);
            }
            let a = registry
                .span(&info("a"), Parent::Root, &[("k", "v")])
                .expect("it waits");
            assert_eq!(a.extensions().insert(Arc::new([7_u8; 200])), Ok(true));
            a.in_scope(|| Ids(registry.clone()).event("message")).expect("it waits");
        }
        // While the threads' own memory is there.
        gate.wait();
        resident()
    };
    let after = thread::scope(|scope| {
        let threads: Vec<_> = (0..4).map(|_| scope.spawn(call)).collect();
        let ended = threads.into_iter().map(|thread| thread.join().expect("no panic"));
        ended.max().expect("four")
    });
    let before = before.load(Ordering::Relaxed);
    assert!(
        after < before + MAY_GROW,
        "{before} bytes after a tenth, {after} at the end"
    );
    guard.finish().expect("a sink takes all");
    assert_empty(&registry);
}

#[test]
fn registries_that_come_and_go_leave_no_memory() {
    let _alone = alone();
    let some = || {
        let (registry, drain) = compact().slots(4096).build().expect("it fits");
        drop(registry.span(&info("a"), Parent::Root, &[("k", "v")]));
        drop((registry, drain));
    };
    (0..100).for_each(|_| some());
    let before = resident();
    (0..2000).for_each(|_| some());
    let after = resident();
    assert!(
        after < before + MAY_GROW,
        "{before} bytes, and {after} after 2000 registries"
    );
}
