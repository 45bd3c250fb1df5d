//! Which thread is which worker.
mod common;

use common::{assert_empty, compact, span, texts, Ids};
use span_registry::{event, Entered, Error, FmtSpan, Layer, Level, Registry, Span};
use std::cell::RefCell;
use std::mem::forget;
use std::sync::atomic::{AtomicU32, Ordering};
use std::sync::{Arc, Condvar, Mutex};
use std::thread;

/// Runs `call` in another thread.
fn elsewhere<T: Send>(call: impl FnOnce() -> T + Send) -> T {
    thread::scope(|scope| scope.spawn(call).join().expect("no panic"))
}

#[test]
fn a_thread_without_a_number_calls_as_one_worker_more() -> Result<(), Error> {
    let (registry, mut drain) = compact().workers(1).build()?;
    let a = span(&registry, "a");
    let told = elsewhere(|| {
        let b = span(&registry, "b");
        Ids(registry.clone()).event("m")?;
        b.try_record(&[("k", "v")])?;
        assert_eq!(registry.current_span(), Ok(None));
        registry.worker()
    });
    assert_eq!((told, registry.worker()), (Ok(1), Ok(0)));
    let counts = registry.counts();
    assert_eq!((counts.workers, counts.threads), (1, 1));
    drop(a);
    let wanted = [
        "new 1 w0 a",
        "new 2 w1 b",
        "event 0 w1 - INFO m",
        "record 2 w1 b k=v",
        "close 2 w1 b k=v",
        "close 1 w0 a",
    ];
    assert_eq!(texts(&mut drain), wanted);
    assert_empty(&registry);
    Ok(())
}

#[test]
fn the_number_of_a_thread_that_is_inside_no_span_is_taken_over() -> Result<(), Error> {
    let (registry, _drain) = compact().workers(1).build()?;
    let a = span(&registry, "a");
    drop(a.try_enter()?);
    assert_eq!(registry.worker(), Ok(0));
    let inside = || a.try_enter().map(|_inside| registry.worker());
    assert_eq!(elsewhere(inside), Ok(Ok(0)));
    // The other one has ended, and its number is free.
    assert_eq!(inside(), Ok(Ok(0)));
    assert_eq!(registry.counts().threads, 1);
    Ok(())
}

#[test]
fn one_thread_more_inside_than_workers_is_refused_and_counted() -> Result<(), Error> {
    let (registry, _drain) = compact().workers(1).build()?;
    let a = span(&registry, "a");
    let inside = a.try_enter()?;
    elsewhere(|| {
        assert_eq!(a.try_enter().map(drop), Err(Error::TooManyThreads));
        assert_eq!(a.try_in_scope(|| 1), Err(Error::TooManyThreads));
        assert_eq!(registry.enter(a.id().expect("wanted")), Err(Error::TooManyThreads));
        assert!(registry.lost().is_nothing());
        // Those that answer no error run all the same.
        assert_eq!(a.in_scope(|| registry.current_span()), Ok(None));
        assert!(!a.enter().is_first());
    });
    assert_eq!(registry.lost().to_string(), "too_many_threads=2");
    drop(inside);
    elsewhere(|| assert!(a.enter().is_first()));
    Ok(())
}

#[test]
fn of_512_threads_a_hundred_are_inside_at_once_and_nothing_is_lost() -> Result<(), Error> {
    const THREADS: usize = 512;
    const ROUNDS: usize = 12;
    let (registry, guard) = Registry::builder()
        .workers(100)
        .layer(Layer::compact().with_span_events(FmtSpan::NONE))
        .spawn_writer(std::io::sink())?;
    let places = (Mutex::new(100), Condvar::new());
    let told = AtomicU32::new(0);
    thread::scope(|scope| {
        for _ in 0..THREADS {
            scope.spawn(|| {
                for _ in 0..ROUNDS {
                    let a = span(&registry, "a");
                    let mut free = places
                        .1
                        .wait_while(places.0.lock().expect("no panic"), |free| *free == 0);
                    *free.as_deref_mut().expect("no panic") -= 1;
                    drop(free);
                    a.try_in_scope(|| {
                        assert_eq!(registry.current_span(), Ok(a.id()));
                        event!(registry, Level::Info, "m");
                        told.fetch_add(1, Ordering::Relaxed);
                        thread::yield_now();
                    })
                    .expect("there are numbers for all that are inside");
                    *places.0.lock().expect("no panic") += 1;
                    places.1.notify_one();
                }
            });
        }
    });
    assert!(registry.lost().is_nothing(), "{}", registry.lost());
    assert_empty(&registry);
    assert_eq!(told.into_inner() as usize, THREADS * ROUNDS);
    assert_eq!(guard.finish().expect("a sink") as usize, THREADS * ROUNDS);
    Ok(())
}

#[test]
fn many_threads_after_one_another_need_one_number() -> Result<(), Error> {
    let (registry, mut drain) = compact().workers(2).build()?;
    assert_eq!(registry.worker(), Ok(0));
    for _ in 0..300 {
        let registry = registry.clone();
        let worker = thread::spawn(move || {
            drop(span(&registry, "a"));
            registry.worker()
        });
        assert_eq!(worker.join().expect("no panic"), Ok(1));
        assert_eq!(texts(&mut drain).len(), 2);
    }
    assert_empty(&registry);
    Ok(())
}

#[test]
fn a_thread_that_ends_leaves_what_it_is_inside_of() -> Result<(), Error> {
    let (registry, mut drain) = compact().workers(2).build()?;
    assert_eq!(registry.worker(), Ok(0));
    let there = registry.clone();
    let ended = thread::spawn(move || {
        let ids = Ids(there);
        for name in ["a", "b"] {
            ids.make(name).expect("new");
        }
        for id in [1, 2, 1] {
            ids.enter(id).expect("enter");
        }
        for id in [1, 2] {
            assert_eq!(ids.close(id), Ok(false));
        }
    });
    ended.join().expect("no panic");
    assert_empty(&registry);
    assert_eq!(registry.counts().threads, 1);
    let wanted = [
        "exit 2 w1 b",
        "close 2 w1 b",
        "exit 1 w1 a",
        "exit 1 w1 a",
        "close 1 w1 a",
    ];
    assert_eq!(texts(&mut drain)[5..], wanted);
    Ok(())
}

#[test]
fn a_forgotten_guard_ends_with_its_thread() -> Result<(), Error> {
    let (registry, _drain) = compact().workers(2).build()?;
    let a = span(&registry, "a");
    thread::spawn({
        let a = a.clone();
        move || forget(a.enter())
    })
    .join()
    .expect("no panic");
    assert_eq!(registry.counts().held, 1);
    drop(a);
    assert_empty(&registry);
    Ok(())
}

#[test]
fn a_number_that_is_owed_is_not_given_again_before() -> Result<(), Error> {
    let (registry, mut drain) = compact().workers(2).ring(5).build()?;
    assert_eq!(registry.worker(), Ok(0));
    let there = registry.clone();
    let ended = thread::spawn(move || {
        let (a, b) = (span(&there, "a"), span(&there, "b"));
        forget(a.enter());
        forget(b.enter());
        Ids(there).event("m").expect("the last place");
    });
    ended.join().expect("no panic");
    let counts = registry.counts();
    // Two closes, and the end of the thread.
    assert_eq!((counts.owed, counts.threads, counts.held), (3, 2, 4));
    let there = registry.clone();
    assert_eq!(
        thread::spawn(move || there.worker()).join().expect("no panic"),
        Err(Error::Backlog)
    );
    // What is read makes place for both handles and both exits.
    let lines = texts(&mut drain);
    assert_eq!(
        lines[5..],
        ["exit 2 w1 b", "close 2 w1 b", "exit 1 w1 a", "close 1 w1 a"]
    );
    assert_empty(&registry);
    assert_eq!(registry.counts().threads, 1);
    assert_eq!(
        thread::spawn(move || registry.worker()).join().expect("no panic"),
        Ok(1)
    );
    Ok(())
}

#[test]
fn a_number_is_free_once_its_last_span_is_left() -> Result<(), Error> {
    let (registry, mut drain) = compact().ring(5).build()?;
    let there = registry.clone();
    let ended = thread::spawn(move || {
        let ids = Ids(there);
        for (id, name) in [(1, "a"), (2, "b")] {
            ids.make(name).expect("new");
            ids.enter(id).expect("enter");
        }
    });
    ended.join().expect("no panic");
    // The fifth place is taken by one of the two exits.
    let counts = registry.counts();
    assert_eq!((counts.calls, counts.owed, counts.threads, counts.held), (5, 1, 1, 3));
    assert_eq!(registry.worker(), Err(Error::Backlog));
    assert_eq!(texts(&mut drain)[4..], ["exit 2 w0 a:b", "exit 1 w0 a"]);
    assert_eq!(registry.counts().threads, 0);
    assert_eq!(registry.worker(), Ok(0));
    Ok(())
}

#[test]
fn the_end_of_a_thread_may_need_several_turns() -> Result<(), Error> {
    let (registry, mut drain) = compact().workers(2).ring(1).build()?;
    let there = registry.clone();
    thread::spawn(move || {
        let ids = Ids(there);
        for (id, name) in [(1, "a"), (2, "b"), (3, "c")] {
            span_registry::retry(|| ids.make(name)).expect("new");
            span_registry::retry(|| ids.enter(id)).expect("enter");
            ids.0.close_or_owe(ids.id(id)).expect("it has a handle");
        }
    })
    .join_with(|| {
        drain.lines().count();
    });
    // One exit at a time fits into the ring.
    let mut turns = 0;
    while registry.settle().is_err() {
        drain.lines().count();
        turns += 1;
        assert!(turns < 20);
    }
    assert_empty(&registry);
    assert_eq!(registry.counts().threads, 0);
    Ok(())
}

/// Joins a thread while somebody reads.
trait JoinWith {
    fn join_with(self, meanwhile: impl FnMut());
}

impl JoinWith for thread::JoinHandle<()> {
    fn join_with(self, mut meanwhile: impl FnMut()) {
        while !self.is_finished() {
            meanwhile();
            thread::yield_now();
        }
        self.join().expect("no panic");
    }
}

#[test]
fn a_thread_has_a_number_in_each_registry() -> Result<(), Error> {
    let (one, _drain_of_one) = Registry::builder().workers(2).build()?;
    let (other, _drain_of_other) = Registry::builder().workers(2).build()?;
    assert_eq!(other.worker(), Ok(0));
    let (there_one, there_other) = (one.clone(), other.clone());
    let numbers = thread::spawn(move || (there_one.worker(), there_other.worker()));
    assert_eq!(numbers.join().expect("no panic"), (Ok(0), Ok(1)));
    assert_eq!(one.worker(), Ok(0));
    for _ in 0..100 {
        let (short, _drain) = Registry::builder().workers(1).build()?;
        assert_eq!(short.worker(), Ok(0));
    }
    Ok(())
}

#[test]
fn a_thread_that_only_drops_takes_no_number() -> Result<(), Error> {
    let (registry, mut drain) = compact().workers(2).build()?;
    let a = span(&registry, "a");
    thread::spawn(move || drop(a)).join().expect("no panic");
    assert_eq!(texts(&mut drain), ["new 1 w0 a", "close 1 w2 a"]);
    assert_eq!(registry.counts().threads, 1);
    assert_empty(&registry);
    Ok(())
}

thread_local! {
    static KEPT: RefCell<Vec<Span>> = const { RefCell::new(Vec::new()) };
}

#[test]
fn a_span_in_a_thread_local_is_given_back_at_the_end() -> Result<(), Error> {
    for kept_first in [true, false] {
        let (registry, mut drain) = compact().workers(2).build()?;
        let there = registry.clone();
        thread::spawn(move || {
            // Which of the two thread locals is dropped first depends on which was used first.
            if kept_first {
                KEPT.with_borrow(Vec::len);
            }
            let a = span(&there, "a");
            KEPT.with_borrow_mut(|kept| kept.push(a));
        })
        .join()
        .expect("no panic");
        // Its number may have gone back before.
        let lines = texts(&mut drain);
        assert_eq!(lines[0], "new 1 w0 a");
        assert!(["close 1 w0 a", "close 1 w2 a"].contains(&&*lines[1]), "{lines:?}");
        assert_empty(&registry);
        assert_eq!(registry.counts().threads, 0);
    }
    Ok(())
}

/// A guard in a thread local, which is dropped once another thread is inside of the same span.
struct Late {
    guard: Option<Entered<'static>>,
    turn: Arc<AtomicU32>,
}

impl Drop for Late {
    fn drop(&mut self) {
        wait_for(&self.turn, 0, 1);
        self.guard = None;
        self.turn.store(2, Ordering::SeqCst);
    }
}

/// Hands the turn on, and waits until it is the next one's.
fn wait_for(turn: &AtomicU32, mine: u32, next: u32) {
    turn.store(mine, Ordering::SeqCst);
    while turn.load(Ordering::SeqCst) != next {
        thread::yield_now();
    }
}

thread_local! {
    static LATE: RefCell<Option<Late>> = const { RefCell::new(None) };
}

#[test]
fn a_guard_that_outlives_its_threads_number_leaves_no_other_thread() -> Result<(), Error> {
    for kept_first in [true, false] {
        let (registry, _drain) = compact().workers(2).build()?;
        let a: &'static Span = Box::leak(Box::new(span(&registry, "a")));
        let turn = Arc::new(AtomicU32::new(9));
        let late = Arc::clone(&turn);
        let ending = thread::spawn(move || {
            if kept_first {
                LATE.with_borrow(|late| assert!(late.is_none()));
            }
            let guard = Some(a.enter());
            LATE.set(Some(Late { guard, turn: late }));
        });
        while turn.load(Ordering::SeqCst) != 0 {
            thread::yield_now();
        }
        // Where the thread's number is free already, this thread gets it, or else that of the test's thread.
        let inside = thread::spawn(move || {
            let inside = a.enter();
            let (is_inside, found) = (inside.is_first(), registry.find(a.id().expect("wanted")));
            wait_for(&turn, 1, 2);
            let entries = registry.find(a.id().expect("wanted")).expect("open").entries;
            (is_inside, found.expect("open").entries, entries)
        });
        let seen = inside.join().expect("no panic");
        ending.join().expect("no panic");
        // Where its number hasn't gone back yet, it is inside too at first.
        assert!(seen == (true, 1, 1) || seen == (true, 2, 1), "{seen:?}");
    }
    Ok(())
}
