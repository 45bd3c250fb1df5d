//! Futures that run inside a span.
mod common;

use common::{assert_empty, compact, id, span, texts};
use span_registry::{event, Error, Instrument, Level, Registry, Span};
use std::future::{self, Future};
use std::panic::{catch_unwind, AssertUnwindSafe};
use std::pin::{pin, Pin};
use std::sync::{Arc, Barrier};
use std::task::{Context, Poll, Wake, Waker};
use std::thread;

/// Whom it makes no difference that a future can go on.
struct Nobody;

impl Wake for Nobody {
    fn wake(self: Arc<Nobody>) {}
}

fn poll<F: Future>(future: Pin<&mut F>) -> Poll<F::Output> {
    future.poll(&mut Context::from_waker(&Waker::from(Arc::new(Nobody))))
}

/// Pending once.
async fn pause() {
    let mut was_here = false;
    future::poll_fn(|_| {
        if std::mem::replace(&mut was_here, true) {
            Poll::Ready(())
        } else {
            Poll::Pending
        }
    })
    .await;
}

/// Tells when it is dropped.
struct Told(Registry);

impl Drop for Told {
    fn drop(&mut self) {
        event!(self.0, Level::Info, "dropped");
    }
}

/// Tells an event in each of two polls, and when it is dropped.
async fn two_steps(registry: Registry) -> u32 {
    let _told = Told(registry.clone());
    event!(registry, Level::Info, "one");
    pause().await;
    event!(registry, Level::Info, "two");
    7
}

#[test]
fn each_poll_is_inside() -> Result<(), Error> {
    let (registry, mut drain) = compact().build()?;
    let mut steps = two_steps(registry.clone()).instrument(span(&registry, "a"));
    assert_eq!(steps.span().id(), Some(id(&registry, 1)));
    assert!(poll(Pin::new(&mut steps)).is_pending());
    assert_eq!(registry.current_span(), Ok(None));
    assert_eq!(poll(Pin::new(&mut steps)), Poll::Ready(7));
    assert_eq!(registry.current_span(), Ok(None));
    assert!(poll(Pin::new(&mut steps)).is_pending());
    drop(steps);
    let wanted = [
        "new 1 w0 a",
        "enter 1 w0 a",
        "event 1 w0 a INFO one",
        "exit 1 w0 a",
        "enter 1 w0 a",
        "event 1 w0 a INFO two",
        "event 1 w0 a INFO dropped",
        "exit 1 w0 a",
        "close 1 w0 a",
    ];
    assert_eq!(texts(&mut drain), wanted);
    assert_empty(&registry);
    Ok(())
}

#[test]
fn a_drop_before_its_end_is_inside() -> Result<(), Error> {
    let (registry, mut drain) = compact().build()?;
    let mut steps = two_steps(registry.clone()).instrument(span(&registry, "a"));
    assert!(poll(Pin::new(&mut steps)).is_pending());
    drain.lines().for_each(drop);
    drop(steps);
    let wanted = [
        "enter 1 w0 a",
        "event 1 w0 a INFO dropped",
        "exit 1 w0 a",
        "close 1 w0 a",
    ];
    assert_eq!(texts(&mut drain), wanted);
    assert_empty(&registry);
    Ok(())
}

/// Ready at once, with what it keeps.
struct Keeping(#[allow(dead_code)] Told);

impl Future for Keeping {
    type Output = ();

    fn poll(self: Pin<&mut Keeping>, _: &mut Context<'_>) -> Poll<()> {
        Poll::Ready(())
    }
}

#[test]
fn what_a_future_keeps_is_dropped_inside_once_it_is_ready() -> Result<(), Error> {
    let (registry, mut drain) = compact().build()?;
    let mut keeping = Keeping(Told(registry.clone())).instrument(span(&registry, "a"));
    assert!(poll(Pin::new(&mut keeping)).is_ready());
    let wanted = ["new 1 w0 a", "enter 1 w0 a", "event 1 w0 a INFO dropped", "exit 1 w0 a"];
    assert_eq!(texts(&mut drain), wanted);
    drop(keeping);
    assert_eq!(texts(&mut drain), ["close 1 w0 a"]);
    Ok(())
}

#[test]
fn spans_within_one_another_are_those_of_the_futures() -> Result<(), Error> {
    let (registry, mut drain) = compact().build()?;
    let (a, b) = (span(&registry, "a"), span(&registry, "b"));
    let both = async {
        event!(registry, Level::Info, "before");
        two_steps(registry.clone()).instrument(b.clone()).await
    };
    let mut both = pin!(both.instrument(a.clone()));
    assert!(poll(both.as_mut()).is_pending());
    // What the thread does between has no span.
    event!(registry, Level::Info, "between");
    assert_eq!(poll(both.as_mut()), Poll::Ready(7));
    let lines = texts(&mut drain);
    let told: Vec<&str> = lines
        .iter()
        .map(String::as_str)
        .filter(|line| line.starts_with("event"))
        .collect();
    let wanted = [
        "event 1 w0 a INFO before",
        "event 2 w0 b INFO one",
        "event 0 w0 - INFO between",
        "event 2 w0 b INFO two",
        "event 2 w0 b INFO dropped",
    ];
    assert_eq!(told, wanted);
    Ok(())
}

#[test]
fn it_is_polled_by_any_thread() -> Result<(), Error> {
    fn is_send<T: Send>(_: &T) {}
    let (registry, mut drain) = compact().workers(3).build()?;
    let mut steps = two_steps(registry.clone()).instrument(span(&registry, "a"));
    is_send(&steps);
    thread::scope(|scope| {
        let first = scope.spawn(|| poll(Pin::new(&mut steps)).is_pending()).join();
        assert!(first.expect("no panic"));
    });
    assert_eq!(poll(Pin::new(&mut steps)), Poll::Ready(7));
    drop(steps);
    let lines = texts(&mut drain);
    let of = |kind: &str| lines.iter().filter(|line| line.starts_with(kind)).count();
    assert_eq!((of("enter"), of("exit"), of("event 1 "), of("close")), (2, 2, 3, 1));
    assert_empty(&registry);
    Ok(())
}

#[test]
fn where_the_entry_is_refused_it_runs_all_the_same() -> Result<(), Error> {
    let (registry, _drain) = compact().workers(1).build()?;
    let (other, a) = (span(&registry, "other"), span(&registry, "a"));
    let (gate, there) = (Barrier::new(2), registry.clone());
    thread::scope(|scope| {
        scope.spawn(|| {
            let _inside = other.enter();
            gate.wait();
            gate.wait();
        });
        gate.wait();
        let mut asks = pin!(async { there.current_span() }.instrument(a.clone()));
        let asked = poll(asks.as_mut());
        gate.wait();
        assert_eq!(asked, Poll::Ready(Ok(None)));
    });
    assert_eq!(registry.lost().by(&Error::TooManyThreads), 1);
    let mut disabled = pin!(async { 3 }.instrument(Span::none()));
    assert_eq!(poll(disabled.as_mut()), Poll::Ready(3));
    assert_eq!(registry.lost().calls(), 1);
    Ok(())
}

async fn panics() {
    pause().await;
    panic!("on purpose");
}

#[test]
fn a_poll_that_panics_leaves_the_span() -> Result<(), Error> {
    let (registry, _drain) = compact().build()?;
    let mut panics = panics().instrument(span(&registry, "a"));
    assert!(poll(Pin::new(&mut panics)).is_pending());
    let panicked = catch_unwind(AssertUnwindSafe(|| poll(Pin::new(&mut panics))));
    assert!(panicked.is_err());
    assert_eq!(registry.current_span(), Ok(None));
    drop(panics);
    assert_empty(&registry);
    Ok(())
}
