//! Programs of many threads, many callsites, and writers that are slow or fail.
mod common;
use common::{alone, assert_clean, assert_closed, compact, many, over, texts};
use span_registry::{Error, OnFull};
use std::io;
use std::sync::atomic::{AtomicBool, Ordering};
use std::sync::{Barrier, Condvar, Mutex, OnceLock};
use std::thread;
use std::time::Duration;
use tracing::callsite::{self, Callsite, Identifier};
use tracing::dispatcher::with_default;
use tracing::field::FieldSet;
use tracing::metadata::Kind;
use tracing::subscriber::Interest;
use tracing::{info, info_span, Dispatch, Level, Metadata, Span};
use tracing_span_registry::Lost;

/// At most so many threads are behind it at once.
struct Gate {
    places: Mutex<usize>,
    free: Condvar,
}

impl Gate {
    fn within(&self, run: impl FnOnce()) {
        let places = self.places.lock().expect("no panic");
        *self.free.wait_while(places, |places| *places == 0).expect("no panic") -= 1;
        run();
        *self.places.lock().expect("no panic") += 1;
        self.free.notify_one();
    }
}

#[test]
fn of_512_threads_a_hundred_are_inside_at_once_and_nothing_is_lost() {
    let _alone = alone();
    let (threads, inside) = (many(512), many(100));
    let builder = compact().workers(inside as u32).slots(4096);
    let (subscriber, guard) = builder.spawn_writer(io::sink()).expect("it fits");
    let dispatch = Dispatch::new(subscriber.clone());
    let all = Barrier::new(threads);
    let together = Barrier::new(inside);
    let is_first = AtomicBool::new(true);
    let gate = Gate { places: Mutex::new(inside), free: Condvar::new() };
    let in_spans = || {
        let a = info_span!("a");
        let in_a = a.enter();
        // The first ones wait until all of them are inside.
        if is_first.load(Ordering::Relaxed) {
            together.wait();
            is_first.store(false, Ordering::Relaxed);
        }
        let b = info_span!("b");
        let in_b = b.enter();
        assert_eq!(Span::current().id(), b.id());
        drop((in_b, in_a));
    };
    let run = || {
        info!("all are there");
        all.wait();
        (0..8).for_each(|_| gate.within(in_spans));
    };
    thread::scope(|scope| {
        for _ in 0..threads {
            scope.spawn(|| with_default(&dispatch, run));
        }
    });
    assert_clean(&subscriber);
    assert_eq!(subscriber.registry().counts().made, threads as u64 * 16);
    // Of each thread's events one, and of each span four.
    assert_eq!(guard.finish().expect("a sink takes all"), threads as u64 * (1 + 16 * 4));
}

#[test]
fn more_threads_inside_than_numbers_lose_entries_that_are_counted() {
    const THREADS: usize = 8;
    let _alone = alone();
    let (subscriber, guard) = compact().workers(2).spawn_writer(io::sink()).expect("it fits");
    let dispatch = Dispatch::new(subscriber.clone());
    let all = Barrier::new(THREADS);
    let run = || {
        let a = info_span!("a");
        let inside = a.enter();
        all.wait();
        drop(inside);
    };
    thread::scope(|scope| {
        for _ in 0..THREADS {
            scope.spawn(|| with_default(&dispatch, run));
        }
    });
    assert_closed(&subscriber);
    assert_eq!(subscriber.lost().to_string(), "too_many_threads=6");
    drop(guard);
}

#[test]
fn a_span_entered_in_one_thread_is_closed_in_another() {
    let _alone = alone();
    let (subscriber, dispatch, mut drain) = over(compact());
    with_default(&dispatch, || {
        let entered = info_span!("a").entered();
        let there = Span::current();
        let (left, wait) = (Barrier::new(2), Barrier::new(2));
        thread::scope(|scope| {
            let other = scope.spawn(|| {
                with_default(&dispatch, || {
                    let entered = there.clone().entered();
                    wait.wait();
                    left.wait();
                    drop(entered.exit());
                });
            });
            wait.wait();
            drop(entered);
            left.wait();
            other.join().expect("no panic");
        });
        assert_eq!(subscriber.registry().counts().open, 1);
        let other = dispatch.clone();
        thread::spawn(move || with_default(&other, || drop(there))).join().expect("no panic");
    });
    let wanted = ["new 1 w0 a", "enter 1 w0 a", "enter 1 w1 a", "exit 1 w0 a", "exit 1 w1 a", "close 1 w1 a"];
    assert_eq!(texts(&mut drain), wanted);
    assert_clean(&subscriber);
}

#[test]
fn a_thread_that_ends_inside_a_span_leaves_it() {
    let _alone = alone();
    let (subscriber, dispatch, mut drain) = over(compact());
    let other = dispatch.clone();
    let ended = thread::spawn(move || {
        with_default(&other, || {
            let a = info_span!("a");
            std::mem::forget(a.enter());
            drop(a);
        });
    });
    ended.join().expect("no panic");
    assert_eq!(texts(&mut drain), ["new 1 w0 a", "enter 1 w0 a", "exit 1 w0 a", "close 1 w0 a"]);
    assert_clean(&subscriber);
}

#[test]
fn subscribers_within_one_another_keep_apart() {
    let _alone = alone();
    let (outer, of_outer, mut outer_drain) = over(compact());
    let (inner, of_inner, mut inner_drain) = over(compact());
    with_default(&of_outer, || {
        let a = info_span!("a");
        let _in_a = a.enter();
        let b = with_default(&of_inner, || {
            let b = info_span!("b");
            b.in_scope(|| info!("m"));
            // A span remembers whose it is.
            a.in_scope(|| info!("in b's subscriber"));
            b
        });
        info!("n");
        drop(b);
    });
    let wanted = [
        "new 1 w0 b",
        "enter 1 w0 b",
        "event 1 w0 b INFO m",
        "exit 1 w0 b",
        "event 0 w0 - INFO in b's subscriber",
        "close 1 w0 b",
    ];
    assert_eq!(texts(&mut inner_drain), wanted);
    assert!(texts(&mut outer_drain).contains(&"event 1 w0 a INFO n".to_owned()));
    assert_clean(&outer);
    assert_clean(&inner);
}

/// A callsite that is made while the program runs.
struct Made(OnceLock<Metadata<'static>>);

impl Callsite for Made {
    fn set_interest(&self, interest: Interest) {
        assert!(!interest.is_sometimes(), "the rules never change");
    }

    fn metadata(&self) -> &Metadata<'_> {
        self.0.get().expect("it is made")
    }
}

fn made_callsite(number: usize) -> &'static Metadata<'static> {
    let made: &'static Made = Box::leak(Box::new(Made(OnceLock::new())));
    let name: &'static str = format!("s{number}").leak();
    let fields = FieldSet::new(&[], Identifier(made));
    let metadata = Metadata::new(name, "app", Level::INFO, None, None, None, fields, Kind::SPAN);
    let metadata = made.0.get_or_init(|| metadata);
    callsite::register(made);
    metadata
}

#[test]
fn ten_thousand_callsites_are_known_apart() {
    let _alone = alone();
    let callsites = many(10_000);
    let (subscriber, dispatch, mut drain) = over(compact().ring(65_536));
    with_default(&dispatch, || {
        for metadata in (0..callsites).map(made_callsite) {
            drop(Span::new(metadata, &metadata.fields().value_set(&[])));
        }
    });
    let lines = texts(&mut drain);
    assert_eq!(lines.len(), 2 * callsites);
    for (number, lines) in lines.chunks(2).enumerate() {
        let ending = format!(" w0 s{number}");
        assert!(lines.iter().all(|line| line.ends_with(&ending)), "{lines:?}");
    }
    assert_clean(&subscriber);
}

/// Fails at each write.
struct Failing;

impl io::Write for Failing {
    fn write(&mut self, _: &[u8]) -> io::Result<usize> {
        Err(io::Error::other("full"))
    }

    fn flush(&mut self) -> io::Result<()> {
        Ok(())
    }
}

/// Takes its time.
struct Slow;

impl io::Write for Slow {
    fn write(&mut self, bytes: &[u8]) -> io::Result<usize> {
        thread::sleep(Duration::from_micros(200));
        Ok(bytes.len())
    }

    fn flush(&mut self) -> io::Result<()> {
        Ok(())
    }
}

/// Tells of what it writes to the subscriber whose lines these are.
struct Speaking;

impl io::Write for Speaking {
    fn write(&mut self, bytes: &[u8]) -> io::Result<usize> {
        info_span!("written").in_scope(|| info!(length = bytes.len(), "written"));
        Ok(bytes.len())
    }

    fn flush(&mut self) -> io::Result<()> {
        Ok(())
    }
}

/// What was lost, and how the writer ended, of 4 threads over a small ring.
fn written(on_full: OnFull, out: impl io::Write + Send + 'static) -> (Lost, io::Result<u64>) {
    const THREADS: usize = 4;
    let spans = many(300) as u64;
    let (subscriber, guard) = compact().ring(8).on_full(on_full).spawn_writer(out).expect("it fits");
    let dispatch = Dispatch::new(subscriber.clone());
    let run = || (0..spans).for_each(|_| info_span!("a").in_scope(|| {}));
    thread::scope(|scope| {
        for _ in 0..THREADS {
            scope.spawn(|| with_default(&dispatch, run));
        }
    });
    let ended = guard.finish();
    assert_closed(&subscriber);
    let (made, lost) = (subscriber.registry().counts().made, subscriber.lost());
    assert!(made == spans * THREADS as u64 || on_full == OnFull::Refuse, "{made} made");
    // Where an entry was refused, its exit and what else goes with it is no misuse.
    assert_eq!(lost.calls(), lost.by(&Error::Backlog), "{lost}");
    (lost, ended)
}

#[test]
fn a_writer_that_is_slow_or_fails_holds_nobody_up() {
    let _alone = alone();
    let all = 4 * 4 * many(300) as u64;
    let (lost, ended) = written(OnFull::Wait, Slow);
    assert_eq!((lost.to_string(), ended.expect("it is only slow")), ("nothing".to_owned(), all));
    let (lost, ended) = written(OnFull::DropOldest, Slow);
    assert!(lost.calls() == 0 && lost.lines() > 0, "{lost}");
    // The lines by which what was thrown away is told come on top.
    assert!(ended.expect("it is only slow") + lost.lines() >= all);
    let (lost, ended) = written(OnFull::Refuse, Slow);
    assert!(lost.calls() > 0 && ended.is_ok(), "{lost}");
    for on_full in [OnFull::Wait, OnFull::DropOldest] {
        let (lost, ended) = written(on_full, Failing);
        assert_eq!((lost.calls(), ended.expect_err("it fails").to_string()), (0, "full".to_owned()));
    }
}

#[test]
fn a_writer_may_be_one_that_makes_spans() {
    let _alone = alone();
    let (subscriber, guard) = compact().ring(8).spawn_writer(Speaking).expect("it fits");
    with_default(&Dispatch::new(subscriber.clone()), || {
        for _ in 0..many(300) {
            info_span!("a").in_scope(|| {});
        }
    });
    guard.finish().expect("it never fails");
    assert_clean(&subscriber);
}
