//! A thread that writes the lines, its guard, and the endings.
mod common;

use common::{assert_empty, compact, span};
use span_registry::{event, span, try_event, FmtSpan, Guard, Layer, Level, Registry, RegistryBuilder, Targets};
use std::io::{self, Write};
use std::sync::atomic::{AtomicBool, AtomicU32, Ordering};
use std::sync::{Arc, Mutex};
use std::thread;
use std::time::Duration;

type AnyError = Box<dyn std::error::Error>;

/// How often it is looked whether something is over, each 5 milliseconds.
const PATIENCE: u32 = 24_000;

/// What was written, and what of it was flushed.
#[derive(Clone, Default)]
struct Paper {
    written: Arc<Mutex<Vec<u8>>>,
    flushed: Arc<Mutex<Vec<u8>>>,
    // Of each write.
    delay: Duration,
}

impl Paper {
    fn flushed(&self) -> String {
        String::from_utf8(self.flushed.lock().expect("no panic").clone()).expect("UTF-8")
    }
}

impl Write for Paper {
    fn write(&mut self, bytes: &[u8]) -> io::Result<usize> {
        thread::sleep(self.delay);
        self.written.lock().expect("no panic").extend_from_slice(bytes);
        Ok(bytes.len())
    }

    fn flush(&mut self) -> io::Result<()> {
        let written = self.written.lock().expect("no panic").clone();
        *self.flushed.lock().expect("no panic") = written;
        Ok(())
    }
}

#[test]
fn a_dropped_guard_has_written_everything_though_spans_leak() -> Result<(), AnyError> {
    let paper = Paper {
        delay: Duration::from_millis(1),
        ..Paper::default()
    };
    let (registry, guard) = compact().spawn_writer(paper.clone())?;
    let leaked = span(&registry, "leaked");
    std::mem::forget(leaked.clone());
    std::mem::forget(registry.clone());
    (0..100).for_each(|number| event!(registry, Level::Info, "{number}"));
    drop(guard);
    let text = paper.flushed();
    let lines: Vec<&str> = text.lines().collect();
    assert_eq!((lines.len(), lines[100]), (102, "event 0 w0 - INFO 99"));
    let open = "event 0 w1 - WARN open span=1 name=leaked handles=1 entries=0 children=0";
    assert_eq!(lines[101], open);
    // Nobody reads now, and nothing waits for it.
    (0..3000).for_each(|_| event!(registry, Level::Info, "after"));
    assert_eq!(paper.flushed(), text);
    let lost = registry.lost();
    assert!(lost.calls() == 0 && lost.lines() > 1900, "{lost}");
    Ok(())
}

#[test]
fn what_is_owed_is_written_too() -> Result<(), AnyError> {
    let paper = Paper {
        delay: Duration::from_millis(2),
        ..Paper::default()
    };
    let (registry, guard) = compact().ring(4).spawn_writer(paper.clone())?;
    let mut spans = Vec::new();
    while spans.len() < 20 {
        spans.push(span_registry::retry(|| {
            registry.span(&common::info("a"), span_registry::Parent::Root, &[])
        })?);
    }
    let guards: Vec<_> = spans.iter().filter_map(|span| span.try_enter().ok()).collect();
    let entered = guards.len();
    drop(guards);
    drop(spans);
    drop(guard);
    let text = paper.flushed();
    let of = |kind: &str| text.lines().filter(|line| line.starts_with(kind)).count();
    assert_eq!(
        (of("new"), of("enter"), of("exit"), of("close")),
        (20, entered, entered, 20)
    );
    assert_empty(&registry);
    Ok(())
}

#[test]
fn a_guard_tells_how_many_lines_were_written() -> Result<(), AnyError> {
    let (registry, guard) = compact().spawn_writer(io::sink())?;
    (0..500).for_each(|_| event!(registry, Level::Info, "m"));
    assert_eq!(guard.finish()?, 500);
    let (registry, guard) = compact().spawn_writer(io::sink())?;
    drop(span(&registry, "a"));
    drop(registry);
    assert_eq!(guard.finish()?, 2);
    Ok(())
}

/// What the guard tells; none where it doesn't end in time.
fn finished(guard: Guard) -> Option<io::Result<u64>> {
    let ending = thread::spawn(|| guard.finish());
    for _ in 0..PATIENCE {
        if ending.is_finished() {
            return ending.join().ok();
        }
        thread::sleep(Duration::from_millis(5));
    }
    None
}

/// How many lines were written by a guard that is dropped while three threads go on with their rounds.
fn lines_beside(builder: RegistryBuilder, round: impl Fn(&Registry) + Sync) -> Result<u64, AnyError> {
    let (registry, guard) = builder.spawn_writer(io::sink())?;
    let is_over = AtomicBool::new(false);
    let ended = thread::scope(|scope| {
        for _ in 0..3 {
            scope.spawn(|| {
                while !is_over.load(Ordering::Relaxed) {
                    round(&registry);
                }
            });
        }
        while registry.counts().calls == 0 {
            thread::yield_now();
        }
        let ended = finished(guard);
        is_over.store(true, Ordering::Relaxed);
        ended
    });
    Ok(ended.ok_or("it doesn't end")??)
}

#[test]
fn a_guard_ends_though_other_threads_go_on() -> Result<(), AnyError> {
    let new = || Registry::builder().workers(4);
    let lines = lines_beside(new().layer(Layer::compact()), |registry| {
        span!(registry, Level::Info, "a").in_scope(|| event!(registry, Level::Info, "m"));
    })?;
    assert!(lines > 0);
    // Something is owed at almost each look, and no batch has a line.
    let quiet = Layer::compact()
        .with_span_events(FmtSpan::NONE)
        .with_targets(Targets::new().with_target("writer", Level::Trace));
    let lines = lines_beside(new().ring(1).layer(quiet), |registry| {
        drop(span!(registry, Level::Info, "a"));
    })?;
    assert_eq!(lines, 0);
    Ok(())
}

/// Fails at the first write, or panics.
struct Failing {
    panics: bool,
}

impl Write for Failing {
    fn write(&mut self, _: &[u8]) -> io::Result<usize> {
        assert!(!self.panics, "on purpose");
        Err(io::Error::other("on purpose"))
    }

    fn flush(&mut self) -> io::Result<()> {
        Ok(())
    }
}

/// Whether it is accepted in time, as by `retry`.
fn is_accepted(registry: &Registry) -> bool {
    for _ in 0..PATIENCE {
        if try_event!(registry, Level::Info, "m").is_ok() {
            return true;
        }
        thread::sleep(Duration::from_millis(5));
    }
    false
}

#[test]
fn a_writer_that_fails_is_told_at_the_end_and_keeps_nobody_waiting() -> Result<(), AnyError> {
    for (panics, wanted) in [(false, "on purpose"), (true, "the writer panicked")] {
        let (registry, guard) = compact().ring(1).spawn_writer(Failing { panics })?;
        assert!((0..20).all(|_| is_accepted(&registry)));
        assert_eq!(guard.finish().expect_err("it fails").to_string(), wanted);
    }
    Ok(())
}

/// The guard of its own thread, which it drops while it writes.
struct Own(Arc<Mutex<Option<Guard>>>);

impl Write for Own {
    fn write(&mut self, bytes: &[u8]) -> io::Result<usize> {
        drop(self.0.lock().expect("no panic").take());
        Ok(bytes.len())
    }

    fn flush(&mut self) -> io::Result<()> {
        Ok(())
    }
}

#[test]
fn a_writer_may_drop_its_own_guard() -> Result<(), AnyError> {
    let shelf = Arc::new(Mutex::new(None));
    let (registry, guard) = compact().ring(2).spawn_writer(Own(Arc::clone(&shelf)))?;
    *shelf.lock().expect("no panic") = Some(guard);
    event!(registry, Level::Info, "m");
    for _ in 0..PATIENCE {
        if Arc::strong_count(&shelf) == 1 {
            return Ok(());
        }
        thread::sleep(Duration::from_millis(5));
    }
    panic!("the writer didn't end");
}

#[test]
fn a_flush_waits_for_the_lines_before_it_and_ends_nothing() -> Result<(), AnyError> {
    let paper = Paper {
        delay: Duration::from_micros(200),
        ..Paper::default()
    };
    let (registry, guard) = compact().ring(8).spawn_writer(paper.clone())?;
    for flush in 1..=20 {
        (0..10).for_each(|number| event!(registry, Level::Info, "{flush}.{number}"));
        guard.flush()?;
        let text = paper.flushed();
        assert_eq!(text.lines().count(), 10 * flush);
        assert!(text.ends_with(&format!("event 0 w0 - INFO {flush}.9\n")), "{text}");
    }
    // With nothing to be written.
    guard.flush()?;
    drop(registry);
    thread::sleep(Duration::from_millis(20));
    guard.flush()?;
    assert_eq!(guard.finish()?, 200);
    Ok(())
}

#[test]
fn flushes_of_several_threads_end_though_others_go_on() -> Result<(), AnyError> {
    let paper = Paper::default();
    let (registry, guard) = Registry::builder()
        .workers(8)
        .parts(2)
        .layer(Layer::compact())
        .spawn_writer(paper.clone())?;
    let (is_over, flushing) = (AtomicBool::new(false), AtomicU32::new(4));
    thread::scope(|scope| {
        for _ in 0..2 {
            scope.spawn(|| {
                while !is_over.load(Ordering::Relaxed) {
                    span!(registry, Level::Info, "a").in_scope(|| event!(registry, Level::Info, "m"));
                }
            });
        }
        for thread in 0..4 {
            let (registry, guard, paper, flushing, is_over) = (&registry, &guard, &paper, &flushing, &is_over);
            scope.spawn(move || {
                let are_out = (0..10).all(|flush| {
                    event!(registry, Level::Info, "of {thread}.{flush}.");
                    guard.flush().is_ok() && paper.flushed().contains(&format!("INFO of {thread}.{flush}.\n"))
                });
                // (the others end first, whatever the outcome)
                if flushing.fetch_sub(1, Ordering::Relaxed) == 1 {
                    is_over.store(true, Ordering::Relaxed);
                }
                assert!(are_out);
            });
        }
    });
    guard.finish()?;
    assert_empty(&registry);
    Ok(())
}

#[test]
fn a_flush_tells_that_the_writer_failed() -> Result<(), AnyError> {
    for panics in [false, true] {
        let (registry, guard) = compact().spawn_writer(Failing { panics })?;
        guard.flush()?;
        event!(registry, Level::Info, "m");
        assert_eq!(guard.flush().expect_err("it fails").to_string(), "the writer failed");
        assert_eq!(guard.flush().expect_err("it failed").to_string(), "the writer failed");
        drop(guard);
    }
    Ok(())
}

/// Flushes the guard of its own thread while it writes.
struct Flushing(Arc<Mutex<Option<Guard>>>);

impl Write for Flushing {
    fn write(&mut self, bytes: &[u8]) -> io::Result<usize> {
        if let Some(guard) = self.0.lock().expect("no panic").take() {
            let refused = guard.flush().expect_err("it can't");
            assert_eq!(refused.to_string(), "the writer can't wait for itself");
        }
        Ok(bytes.len())
    }

    fn flush(&mut self) -> io::Result<()> {
        Ok(())
    }
}

#[test]
fn a_writer_can_not_flush_itself() -> Result<(), AnyError> {
    let shelf = Arc::new(Mutex::new(None));
    let (registry, guard) = compact().spawn_writer(Flushing(Arc::clone(&shelf)))?;
    *shelf.lock().expect("no panic") = Some(guard);
    event!(registry, Level::Info, "m");
    while Arc::strong_count(&shelf) > 1 {
        thread::sleep(Duration::from_millis(5));
    }
    let was_asked = shelf.lock().map(|guard| guard.is_none());
    assert!(was_asked.expect("no panic there"));
    Ok(())
}

#[test]
fn a_drain_runs_until_it_is_told_to_stop() -> Result<(), AnyError> {
    let (registry, mut drain) = Registry::builder().layer(Layer::json()).build()?;
    let stop = AtomicBool::new(true);
    assert_eq!(drain.run_until(&mut io::sink(), &stop)?, 0);
    event!(registry, Level::Info, "m");
    assert_eq!(drain.run_until(&mut io::sink(), &stop)?, 1);
    event!(registry, Level::Info, "m");
    assert_eq!(drain.run_layers_until(&mut [io::sink()], &stop)?, 1);
    stop.store(false, Ordering::Relaxed);
    drop(registry);
    assert_eq!(drain.run_until(&mut io::sink(), &stop)?, 0);
    Ok(())
}
