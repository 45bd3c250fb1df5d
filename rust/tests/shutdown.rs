//! The writer's end and its flushes, asked for by who hasn't its guard.
mod common;

use common::{compact, span};
use span_registry::{event, Error, Level, OnFull, Registry};
use std::io::{self, ErrorKind, Write};
use std::sync::atomic::{AtomicBool, Ordering};
use std::sync::mpsc::{channel, Sender};
use std::sync::{Arc, Mutex, OnceLock};
use std::thread;
use std::time::Duration;

type AnyError = Box<dyn std::error::Error>;

/// What was written, and how much of it was flushed.
#[derive(Clone, Default)]
struct Paper(Arc<Mutex<(Vec<u8>, usize)>>);

impl Paper {
    fn flushed(&self) -> Vec<String> {
        let (bytes, flushed) = &*self.0.lock().expect("no panic");
        let text = std::str::from_utf8(&bytes[..*flushed]).expect("UTF-8");
        text.lines().map(str::to_owned).collect()
    }
}

impl Write for Paper {
    fn write(&mut self, bytes: &[u8]) -> io::Result<usize> {
        self.0.lock().expect("no panic").0.extend_from_slice(bytes);
        Ok(bytes.len())
    }

    fn flush(&mut self) -> io::Result<()> {
        let (bytes, flushed) = &mut *self.0.lock().expect("no panic");
        *flushed = bytes.len();
        Ok(())
    }
}

fn text_of(answer: io::Result<()>) -> Option<String> {
    answer.err().map(|error| error.to_string())
}

#[test]
fn a_registry_flushes_and_ends_its_writer() -> Result<(), AnyError> {
    let paper = Paper::default();
    let (registry, guard) = compact().spawn_writer(paper.clone())?;
    let _open = span(&registry, "a");
    registry.clone().flush()?;
    assert_eq!(paper.flushed(), ["new 1 w0 a"]);
    event!(registry, Level::Info, "m");
    registry.shutdown()?;
    let lines = paper.flushed();
    assert_eq!((lines.len(), &*lines[1]), (3, "event 0 w0 - INFO m"));
    assert!(lines[2].contains(" open span=1 "), "{lines:?}");
    // What comes now is thrown away, and nobody waits.
    (0..3000).for_each(|_| event!(registry, Level::Info, "late"));
    assert!(registry.lost().lines() > 0 && registry.lost().calls() == 0);
    registry.shutdown()?;
    let stopped = Some("the writer was stopped".to_owned());
    assert_eq!(
        (text_of(registry.flush()), text_of(guard.flush())),
        (stopped.clone(), stopped)
    );
    assert_eq!((guard.finish()?, paper.flushed().len()), (3, 3));
    Ok(())
}

#[test]
fn one_in_a_static_is_ended_though_its_clones_stay() -> Result<(), AnyError> {
    static REGISTRY: OnceLock<Registry> = OnceLock::new();
    let paper = Paper::default();
    let (registry, guard) = compact().spawn_writer(paper.clone())?;
    std::mem::forget(guard);
    let registry = REGISTRY.get_or_init(|| registry);
    event!(registry, Level::Info, "m");
    registry.shutdown()?;
    assert_eq!(paper.flushed(), ["event 0 w0 - INFO m"]);
    Ok(())
}

#[test]
fn where_no_writer_was_spawned_there_is_none_to_ask() -> Result<(), Error> {
    let (registry, mut drain) = compact().build()?;
    for _ in 0..2 {
        let kinds = [registry.flush(), registry.shutdown()].map(|answer| answer.map_err(|error| error.kind()));
        assert_eq!(kinds, [Err(ErrorKind::NotFound); 2]);
        event!(registry, Level::Info, "m");
        assert!(drain.line().is_some());
    }
    Ok(())
}

/// A writer that asks for its own flush and its own end.
struct Own(Registry, Sender<[Option<String>; 2]>);

impl Write for Own {
    fn write(&mut self, bytes: &[u8]) -> io::Result<usize> {
        let _heard = self.1.send([text_of(self.0.flush()), text_of(self.0.shutdown())]);
        Ok(bytes.len())
    }

    fn flush(&mut self) -> io::Result<()> {
        Ok(())
    }
}

#[test]
fn the_writer_itself_is_told_that_it_can_not_wait() -> Result<(), AnyError> {
    let (registry, drain) = compact().build()?;
    let (sender, heard) = channel();
    let guard = drain.spawn(Own(registry.clone(), sender))?;
    event!(registry, Level::Info, "m");
    let itself = Some("the writer can't wait for itself".to_owned());
    assert_eq!(heard.recv_timeout(Duration::from_secs(60))?, [itself.clone(), itself]);
    // It ends, as it asked for.
    registry.shutdown()?;
    assert_eq!(guard.finish()?, 1);
    Ok(())
}

/// A writer that fails, or panics, at its first line.
struct Failing {
    panics: bool,
}

impl Write for Failing {
    fn write(&mut self, _: &[u8]) -> io::Result<usize> {
        assert!(!self.panics, "on purpose");
        Err(io::Error::other("on purpose"))
    }

    fn flush(&mut self) -> io::Result<()> {
        Ok(())
    }
}

#[test]
fn a_writer_that_failed_is_told() -> Result<(), AnyError> {
    for panics in [false, true] {
        let (registry, guard) = compact().ring(4).spawn_writer(Failing { panics })?;
        (0..20).for_each(|_| event!(registry, Level::Info, "m"));
        let failed = Some("the writer failed".to_owned());
        assert_eq!(text_of(registry.flush()), failed);
        assert_eq!(text_of(registry.shutdown()), failed);
        // It was ended: nobody waits for it.
        (0..20).for_each(|_| event!(registry, Level::Info, "m"));
        assert!(guard.finish().is_err());
    }
    Ok(())
}

#[test]
fn many_ask_for_flushes_and_the_end_at_once_and_no_line_before_them_is_lost() -> Result<(), AnyError> {
    for parts in [1, 3] {
        let paper = Paper::default();
        let builder = compact().workers(8).parts(parts).ring(8).on_full(OnFull::Wait);
        let (registry, guard) = builder.spawn_writer(paper.clone())?;
        let (is_over, lines) = (AtomicBool::new(false), Mutex::new(Vec::new()));
        thread::scope(|scope| {
            for number in 0..6 {
                let (registry, is_over, lines, paper) = (&registry, &is_over, &lines, &paper);
                scope.spawn(move || {
                    for round in 0..200 {
                        let message = format!("{number}-{round}");
                        event!(registry, Level::Info, "{message}");
                        if round % 10 == number && registry.flush().is_ok() {
                            // Whoever was told so finds its line.
                            let flushed = paper.flushed();
                            assert!(flushed.iter().any(|line| line.ends_with(&message)), "{message}");
                            lines.lock().expect("no panic").push(message);
                        }
                    }
                    if number == 5 {
                        registry.shutdown().expect("paper takes all");
                        is_over.store(true, Ordering::Release);
                    }
                });
            }
        });
        assert!(is_over.load(Ordering::Acquire));
        registry.shutdown()?;
        let written = guard.finish()?;
        let flushed = paper.flushed();
        assert_eq!(written, flushed.len() as u64);
        for message in lines.into_inner()? {
            assert_eq!(
                flushed
                    .iter()
                    .filter(|line| line.ends_with(&format!(" {message}")))
                    .count(),
                1
            );
        }
    }
    Ok(())
}
