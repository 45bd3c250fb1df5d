//! Reading lines: one by one, to writers, in a thread of its own.
mod common;

use common::{compact, info, span, Ids};
use span_registry::{Error, Layer, Level, Meta, Parent, Registry};
use std::io::{self, Write};
use std::thread;
use std::time::Duration;

#[test]
fn lines_of_any_length_are_read_whole() -> Result<(), Error> {
    let (registry, mut drain) = compact().build()?;
    for length in [0, 1, 200, 230, 231, 232, 233, 234, 235, 255, 256, 257, 5_000, 1_000_000] {
        let message = "x".repeat(length);
        Ids(registry.clone()).event(&message)?;
        let line = drain.line().expect("a line");
        assert_eq!(line.text, format!("event 0 w0 - INFO {message}"));
        assert_eq!(drain.line(), None);
    }
    Ok(())
}

#[test]
fn a_thread_writes_all_lines_until_the_registry_is_gone() -> Result<(), Error> {
    let (registry, mut drain) = compact().build()?;
    let writing = thread::spawn(move || {
        let mut out = Vec::new();
        drain.run(&mut out).map(|lines| (lines, out))
    });
    // Long enough for the thread to find no line, and to sleep.
    let pause = || thread::sleep(Duration::from_millis(30));
    pause();
    let a = span(&registry, "a");
    pause();
    a.in_scope(|| Ids(registry.clone()).event("m"))?;
    drop((a, registry));
    let (lines, out) = writing.join().expect("no panic").expect("no error");
    assert_eq!(lines, 5);
    let text = String::from_utf8(out).expect("UTF-8");
    assert_eq!(
        text,
        "new 1 w0 a\nenter 1 w0 a\nevent 1 w0 a INFO m\nexit 1 w0 a\nclose 1 w0 a\n"
    );
    Ok(())
}

#[test]
fn each_layer_may_have_its_writer() -> Result<(), Error> {
    let quiet = Layer::json().with_max_level(Level::Error);
    let (registry, mut drain) = Registry::builder().layer(Layer::compact()).layer(quiet).build()?;
    drop(span(&registry, "a"));
    registry.event(&Meta::event(Level::Error, "app"), "m", &[])?;
    drop(registry);
    assert_eq!(drain.layers(), 2);
    let mut outs = [Vec::new(), Vec::new()];
    assert_eq!(drain.run_layers(&mut outs).expect("no error"), 4);
    let [compact, json] = outs.map(|out| String::from_utf8(out).expect("UTF-8"));
    assert_eq!(compact, "new 1 w0 a\nclose 1 w0 a\nevent 0 w0 - ERROR m\n");
    let line = r#"{"fields":[],"id":0,"kind":"event","level":"ERROR","message":"m","path":"-","worker":0}"#;
    assert_eq!(json, format!("{line}\n"));
    Ok(())
}

#[test]
fn too_few_writers_are_refused_before_anything_is_read() -> Result<(), Error> {
    let (registry, mut drain) = Registry::builder()
        .layer(Layer::compact())
        .layer(Layer::compact())
        .build()?;
    drop(span(&registry, "a"));
    let error = drain.write_layers(&mut [Vec::new()]).expect_err("one is missing");
    assert_eq!(error.kind(), io::ErrorKind::InvalidInput);
    assert_eq!(drain.lines().count(), 4);
    Ok(())
}

/// Takes so many writes, and fails at the next one.
struct Failing {
    writes: usize,
    taken: Vec<u8>,
}

impl Write for Failing {
    fn write(&mut self, bytes: &[u8]) -> io::Result<usize> {
        if self.writes == 0 {
            self.writes = usize::MAX;
            return Err(io::Error::other("full"));
        }
        self.writes -= 1;
        self.taken.extend_from_slice(bytes);
        Ok(bytes.len())
    }

    fn flush(&mut self) -> io::Result<()> {
        Ok(())
    }
}

#[test]
fn a_line_that_could_not_be_written_stays_the_next_one() -> Result<(), Error> {
    let (registry, mut drain) = compact().build()?;
    drop(span(&registry, "a"));
    drop(span(&registry, "b"));
    let mut out = Failing {
        writes: 2,
        taken: Vec::new(),
    };
    assert_eq!(drain.write_to(&mut out).expect_err("it fails").to_string(), "full");
    assert_eq!(drain.write_to(&mut out).expect("no error"), 2);
    let text = String::from_utf8(out.taken).expect("UTF-8");
    assert_eq!(
        text,
        "new 1 w0 a\nclose 1 w0 a\nnew 16777217 w0 b\nclose 16777217 w0 b\n"
    );
    Ok(())
}

#[test]
fn lines_are_left_when_the_registry_is_gone() -> Result<(), Error> {
    let (registry, mut drain) = compact().build()?;
    let a = registry.span(&info("a"), Parent::Root, &[("k", "v")])?;
    drop(a);
    drop(registry);
    assert!(drain.is_over());
    assert_eq!(common::texts(&mut drain), ["new 1 w0 a k=v", "close 1 w0 a k=v"]);
    assert_eq!(drain.line(), None);
    assert_eq!(drain.counts().batches, 2);
    Ok(())
}

#[test]
fn a_drain_and_its_registry_are_dropped_in_any_order() -> Result<(), Error> {
    for drain_first in [true, false] {
        let (registry, drain) = compact().build()?;
        let a = span(&registry, "a");
        if drain_first {
            drop(drain);
            drop((a, registry));
        } else {
            drop((a, registry));
            drop(drain);
        }
    }
    Ok(())
}
