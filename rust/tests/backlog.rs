//! Where nobody reads the drain: what is refused, what is owed, and when it is done.
mod common;

use common::{assert_empty, compact, id, info, span, texts, Ids, LONG};
use span_registry::{retry, Error, Layer, Parent, Registry, Targets};
use std::sync::mpsc::channel;
use std::thread;
use std::time::Duration;

#[test]
fn each_call_is_refused_while_the_ring_is_full() -> Result<(), Error> {
    let (registry, mut drain) = Registry::builder().workers(1).ring(1).build()?;
    let ids = Ids(registry);
    assert_eq!(ids.make("a"), Ok(1));
    assert_eq!(drain.line(), None);
    assert_eq!(ids.enter(1), Ok(true));
    assert_eq!(ids.make("b"), Err(Error::Backlog));
    assert_eq!(ids.clone_span(1), Err(Error::Backlog));
    assert_eq!(ids.enter(1), Err(Error::Backlog));
    assert_eq!(ids.exit(1), Err(Error::Backlog));
    assert_eq!(ids.record(1, &[("k", "v")]), Err(Error::Backlog));
    assert_eq!(ids.event("m"), Err(Error::Backlog));
    assert_eq!(ids.close(1), Err(Error::Backlog));
    assert_eq!(ids.exit(2), Err(Error::Unknown));
    assert_eq!(ids.make(LONG), Err(Error::bad_name(LONG)));
    assert_eq!(ids.find(1), Some((0, 1, 1, 2)));
    assert_eq!(drain.line(), None);
    assert_eq!(ids.exit(1), Ok(false));
    assert_eq!(drain.line(), None);
    assert_eq!(ids.close(1), Ok(true));
    assert_eq!(ids.0.counts().calls, 4);
    assert_empty(&ids.0);
    Ok(())
}

#[test]
fn a_span_that_no_layer_wants_needs_no_place() -> Result<(), Error> {
    let layer = Layer::compact().with_targets(Targets::new());
    let (registry, mut drain) = Registry::builder().ring(1).layer(layer).build()?;
    let ids = Ids(registry);
    ids.event("m")?;
    assert_eq!(ids.0.new_span(&info("a"), Parent::Root, &[]), Ok(None));
    assert_eq!(ids.event("m"), Err(Error::Backlog));
    assert_eq!(drain.line(), None);
    assert_eq!((ids.0.counts().calls, ids.0.counts().made), (1, 0));
    Ok(())
}

#[test]
fn a_refused_close_hands_the_span_back() -> Result<(), Error> {
    let (registry, mut drain) = compact().ring(1).build()?;
    let a = span(&registry, "a");
    let (a, error) = a.try_close().expect_err("the ring is full");
    assert_eq!((a.id(), error), (Some(id(&registry, 1)), Error::Backlog));
    assert_eq!(registry.counts().held, 1);
    assert_eq!(texts(&mut drain), ["new 1 w0 a"]);
    assert!(a.try_close().expect("the ring has place"));
    assert_eq!(texts(&mut drain), ["close 1 w0 a"]);
    assert_empty(&registry);
    Ok(())
}

#[test]
fn what_drops_could_not_do_is_owed_and_done_in_order() -> Result<(), Error> {
    let (registry, mut drain) = compact().ring(2).build()?;
    let (a, b) = (span(&registry, "a"), span(&registry, "b"));
    assert_eq!(texts(&mut drain), ["new 1 w0 a", "new 2 w0 b"]);
    let (in_a, in_b) = (a.try_enter()?, b.try_enter()?);
    // The ring is full from here on.
    drop(in_a);
    drop(b.clone());
    drop(in_b);
    drop(b);
    drop(a);
    let counts = registry.counts();
    assert_eq!((counts.owed, counts.open, counts.held, counts.calls), (4, 2, 4, 4));
    assert_eq!(registry.settle(), Err(Error::Backlog));
    assert_eq!(registry.current_span(), Err(Error::Backlog));
    assert_eq!(Ids(registry.clone()).event("m"), Err(Error::Backlog));
    // A span's name is looked at after what is owed.
    assert_eq!(Ids(registry.clone()).make("a b"), Err(Error::Backlog));
    let wanted = [
        "enter 1 w0 a",
        "enter 2 w0 b",
        "exit 1 w0 a",
        "exit 2 w0 b",
        "close 2 w0 b",
        "close 1 w0 a",
    ];
    assert_eq!(texts(&mut drain), wanted);
    assert_empty(&registry);
    assert_eq!(registry.settle(), Ok(()));
    assert_eq!(registry.counts().calls, 8);
    Ok(())
}

#[test]
fn the_next_call_does_what_is_owed_first() -> Result<(), Error> {
    let (registry, mut drain) = compact().ring(1).build()?;
    drop(span(&registry, "a"));
    assert_eq!(registry.counts().owed, 1);
    // One line is read, and no more: it is the call below that finds a place for what is owed.
    assert_eq!(drain.line().map(|line| line.text), Some("new 1 w0 a".to_owned()));
    let ids = Ids(registry);
    assert_eq!(ids.event("m"), Err(Error::Backlog));
    assert_eq!(ids.0.counts().owed, 0);
    assert_eq!(drain.line().map(|line| line.text), Some("close 1 w0 a".to_owned()));
    ids.event("m")?;
    assert_eq!(texts(&mut drain), ["event 0 w0 - INFO m"]);
    Ok(())
}

#[test]
fn a_drop_overtakes_nothing_that_is_owed() -> Result<(), Error> {
    let (registry, mut drain) = compact().ring(3).build()?;
    let (a, b) = (span(&registry, "a"), span(&registry, "b"));
    let in_b = b.try_enter()?;
    drop(a);
    // One place, which is for the close of `a`, and then one for the exit.
    assert_eq!(drain.line().map(|line| line.text), Some("new 1 w0 a".to_owned()));
    drop(in_b);
    assert_eq!(registry.counts().owed, 1);
    assert_eq!(drain.line().map(|line| line.text), Some("new 2 w0 b".to_owned()));
    drop(b);
    assert_eq!(registry.counts().owed, 1);
    let wanted = ["enter 2 w0 b", "close 1 w0 a", "exit 2 w0 b", "close 2 w0 b"];
    assert_eq!(texts(&mut drain), wanted);
    assert_empty(&registry);
    Ok(())
}

#[test]
fn the_drain_does_what_is_owed_where_no_call_comes() -> Result<(), Error> {
    let (registry, mut drain) = compact().ring(1).build()?;
    let a = span(&registry, "a");
    let more: Vec<_> = (0..5)
        .map(|_| {
            drain.lines().count();
            a.try_clone().expect("the ring has place")
        })
        .collect();
    drop((a, more, registry));
    assert!(drain.is_over());
    assert_eq!(texts(&mut drain), ["close 1 w0 a"]);
    Ok(())
}

#[test]
fn an_adapter_may_owe_by_ids() -> Result<(), Error> {
    let (registry, mut drain) = compact().ring(1).build()?;
    let ids = Ids(registry);
    ids.make("a")?;
    assert_eq!(texts(&mut drain).len(), 1);
    ids.enter(1)?;
    ids.0.exit_or_owe(ids.id(1))?;
    ids.0.close_or_owe(ids.id(1))?;
    assert_eq!(ids.0.counts().owed, 2);
    assert_eq!(texts(&mut drain), ["enter 1 w0 a", "exit 1 w0 a", "close 1 w0 a"]);
    assert_eq!(ids.0.exit_or_owe(ids.id(1)), Err(Error::Unknown));
    assert_eq!(ids.0.close_or_owe(ids.id(1)), Err(Error::Unknown));
    assert_empty(&ids.0);
    assert_eq!(ids.0.counts().calls, 4);
    Ok(())
}

#[test]
fn a_slow_drain_of_a_ring_of_one_loses_nothing() -> Result<(), Error> {
    const ROUNDS: usize = 300;
    let (registry, mut drain) = compact().ring(1).build()?;
    let reading = thread::spawn(move || {
        let mut texts = Vec::new();
        while texts.len() < ROUNDS * 8 {
            if let Some(line) = drain.line() {
                texts.push(line.text);
            }
            thread::sleep(Duration::from_micros(20));
        }
        texts
    });
    for round in 0..ROUNDS {
        let name = format!("a{round}");
        let outer = retry(|| registry.span(&info(&name), Parent::Root, &[]))?;
        let _in_outer = retry(|| outer.try_enter())?;
        let inner = retry(|| registry.span(&info("b"), Parent::Current, &[]))?;
        let _in_inner = retry(|| inner.try_enter())?;
    }
    let texts = reading.join().expect("no panic");
    for (round, lines) in texts.chunks(8).enumerate() {
        assert_eq!(lines, lines_of_a_round(round, &id_of(&lines[0]), &id_of(&lines[2])));
    }
    assert_empty(&registry);
    Ok(())
}

fn lines_of_a_round(round: usize, outer: &str, inner: &str) -> [String; 8] {
    let outer = |kind: &str| format!("{kind} {outer} w0 a{round}");
    let inner = |kind: &str| format!("{kind} {inner} w0 a{round}:b");
    let (into, out) = (["new", "enter"], ["exit", "close"]);
    let [new, enter] = into.map(outer);
    let [new_inner, enter_inner] = into.map(inner);
    let [exit_inner, close_inner] = out.map(inner);
    let [exit, close] = out.map(outer);
    [new, enter, new_inner, enter_inner, exit_inner, close_inner, exit, close]
}

fn id_of(line: &str) -> String {
    line.split(' ').nth(1).expect("an id").to_owned()
}

#[test]
fn a_retry_that_goes_on_and_on_ends_once_the_drain_is_dropped() -> Result<(), Error> {
    let (registry, drain) = compact().ring(1).build()?;
    let ids = Ids(registry.clone());
    ids.event("1")?;
    let ((refused, is_refused), (done, is_done)) = (channel(), channel());
    let caller = thread::spawn(move || {
        let told = retry(|| {
            let told = ids.event("2");
            // Only the first one is waited for.
            let _ = told.is_err().then(|| refused.send(()));
            told
        });
        done.send(told).expect("the test waits");
    });
    let limit = Duration::from_secs(20);
    is_refused.recv_timeout(limit).expect("the ring is full");
    drop(drain);
    let told = is_done.recv_timeout(limit);
    assert_eq!(told.expect("it ends"), Ok(()));
    caller.join().expect("no panic");
    let (counts, lost) = (registry.counts(), registry.lost());
    assert_eq!((counts.calls, lost.calls(), lost.lines()), (2, 0, 1));
    Ok(())
}

#[test]
fn after_the_drain_was_dropped_lines_are_thrown_away() -> Result<(), Error> {
    let (registry, mut drain) = compact().ring(2).build()?;
    let a = span(&registry, "a");
    let inside = a.try_enter()?;
    drain.line();
    drop(drain);
    let ids = Ids(registry.clone());
    (0..9).try_for_each(|_| retry(|| ids.event("m")))?;
    drop(inside);
    drop(a);
    assert_empty(&registry);
    let counts = registry.counts();
    assert_eq!((counts.calls, counts.owed), (13, 0));
    // What is not thrown away stands in the ring.
    let lost = registry.lost();
    assert!((10..=12).contains(&lost.lines()), "{lost}");
    assert_eq!(lost.calls(), 0);
    Ok(())
}
