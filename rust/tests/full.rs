//! What calls do where the ring is full.
mod common;

use common::{assert_empty, compact, span, texts, Ids};
use span_registry::{event, Error, Layer, Level, OnFull, Registry};
use std::sync::mpsc::channel;
use std::thread;
use std::time::Duration;

#[test]
fn the_oldest_lines_make_place() -> Result<(), Error> {
    let (registry, mut drain) = compact().ring(3).on_full(OnFull::DropOldest).build()?;
    let a = span(&registry, "a");
    for number in 0..5 {
        event!(registry, Level::Info, "{number}");
    }
    drop(a);
    let lost = registry.lost();
    assert_eq!((lost.lines(), lost.calls(), registry.counts().owed), (4, 0, 0));
    let wanted = [
        "event 0 w0 - INFO 3",
        "event 0 w0 - INFO 4",
        "close 1 w0 a",
        "event 0 w1 - WARN lost lines=4",
    ];
    assert_eq!(texts(&mut drain), wanted);
    assert_empty(&registry);
    Ok(())
}

#[test]
fn lines_of_any_length_may_be_thrown_away() -> Result<(), Error> {
    let (registry, mut drain) = compact().ring(1).on_full(OnFull::DropOldest).build()?;
    for length in [10, 10_000, 100, 100_000, 0, 1] {
        Ids(registry.clone()).event(&"x".repeat(length))?;
    }
    assert_eq!(texts(&mut drain)[0], "event 0 w0 - INFO x");
    Ok(())
}

#[test]
fn a_call_waits_for_a_place() -> Result<(), Error> {
    const EVENTS: usize = 400;
    let (registry, mut drain) = compact().workers(4).ring(1).on_full(OnFull::Wait).build()?;
    let reading = thread::spawn(move || {
        let mut texts = Vec::new();
        while texts.len() < 4 * EVENTS {
            texts.extend(drain.line());
            thread::yield_now();
        }
        texts.len()
    });
    thread::scope(|scope| {
        for _ in 0..4 {
            scope.spawn(|| (0..EVENTS).for_each(|number| event!(registry, Level::Info, "{number}")));
        }
    });
    assert_eq!(reading.join().expect("no panic"), 4 * EVENTS);
    assert!(registry.lost().is_nothing());
    Ok(())
}

#[test]
fn a_call_that_waits_goes_on_once_the_drain_is_dropped() -> Result<(), Error> {
    let (registry, drain) = compact().ring(1).on_full(OnFull::Wait).build()?;
    event!(registry, Level::Info, "1");
    let (done, is_done) = channel();
    let waiting = registry.clone();
    thread::spawn(move || {
        event!(waiting, Level::Info, "2");
        done.send(()).expect("the test waits");
    });
    assert!(is_done.recv_timeout(Duration::from_millis(50)).is_err());
    drop(drain);
    is_done.recv_timeout(Duration::from_secs(20)).expect("it goes on");
    assert_eq!(registry.lost().lines(), 1);
    Ok(())
}

/// A writer that makes a call of its own for each line.
struct Calling(Registry);

impl std::io::Write for Calling {
    fn write(&mut self, bytes: &[u8]) -> std::io::Result<usize> {
        if !bytes.ends_with(b"inner\n") {
            event!(self.0, Level::Info, "inner");
        }
        Ok(bytes.len())
    }

    fn flush(&mut self) -> std::io::Result<()> {
        Ok(())
    }
}

#[test]
fn the_writing_thread_does_not_wait_for_itself() -> Result<(), Error> {
    let layer = Layer::compact().with_max_level(Level::Info);
    let (registry, mut drain) = Registry::builder().layer(layer).ring(1).on_full(OnFull::Wait).build()?;
    event!(registry, Level::Info, "outer");
    let mut out = Calling(registry.clone());
    let reading = thread::spawn(move || drain.write_to(&mut out).map(|lines| (lines, out.0)));
    let (_lines, registry) = reading.join().expect("no panic").expect("no error");
    assert_eq!(registry.counts().calls, 2);
    Ok(())
}

#[test]
fn a_writer_that_was_spawned_is_waited_for() -> Result<(), Box<dyn std::error::Error>> {
    const EVENTS: usize = 3000;
    let (registry, guard) = compact().workers(4).ring(2).spawn_writer(std::io::sink())?;
    thread::scope(|scope| {
        for _ in 0..4 {
            scope.spawn(|| (0..EVENTS).for_each(|number| event!(registry, Level::Info, "{number}")));
        }
    });
    assert!(registry.lost().is_nothing(), "{}", registry.lost());
    assert_eq!(guard.finish()? as usize, 4 * EVENTS);
    Ok(())
}

#[test]
fn a_writer_may_be_asked_to_refuse() -> Result<(), Box<dyn std::error::Error>> {
    let builder = compact().ring(1).on_full(OnFull::Refuse);
    let (registry, guard) = builder.spawn_writer(Stuck)?;
    while registry.lost().by(&Error::Backlog) == 0 {
        event!(registry, Level::Info, "m");
    }
    drop(guard);
    Ok(())
}

/// Takes its time.
struct Stuck;

impl std::io::Write for Stuck {
    fn write(&mut self, bytes: &[u8]) -> std::io::Result<usize> {
        thread::sleep(Duration::from_millis(1));
        Ok(bytes.len())
    }

    fn flush(&mut self) -> std::io::Result<()> {
        Ok(())
    }
}

#[test]
fn a_thread_that_waits_takes_one_number() -> Result<(), Error> {
    let builder = Registry::builder().workers(3).ring(1).on_full(OnFull::Wait);
    let (registry, mut drain) = builder.layer(Layer::compact()).build()?;
    event!(registry, Level::Info, "1");
    let waiting = registry.clone();
    let thread = thread::spawn(move || event!(waiting, Level::Info, "2"));
    while registry.counts().threads < 2 {
        thread::sleep(Duration::from_millis(1));
    }
    thread::sleep(Duration::from_millis(20));
    let mut lines = Vec::new();
    while lines.len() < 2 {
        lines.extend(texts(&mut drain));
    }
    thread.join().expect("no panic");
    assert_eq!(lines, ["event 0 w0 - INFO 1", "event 0 w1 - INFO 2"]);
    assert_eq!(registry.counts().threads, 1);
    Ok(())
}
