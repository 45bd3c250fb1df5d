//! Ids that nobody gave, handles given back twice, guards forgotten, what is owed without end, and calls of those who
//! are called.
use crate::common::{assert_empty, compact, info, span, texts};
use crate::{many, Random};
use span_registry::{event, Error, Id, Level, Parent, Registry, Span};
use std::io::{self, Write};
use std::sync::Arc;
use std::thread;

/// Each call that takes an id.
fn of_all_calls(registry: &Registry, id: Id) -> [Result<(), Error>; 10] {
    [
        registry.new_span(&info("b"), Parent::Of(id), &[]).map(drop),
        registry.span(&info("b"), Parent::Of(id), &[]).map(drop),
        registry.clone_span(id),
        registry.enter(id).map(drop),
        registry.exit(id).map(drop),
        registry.try_close(id).map(drop),
        registry.record(id, &[("k", "v")]),
        registry.exit_or_owe(id),
        registry.close_or_owe(id),
        registry.extensions(id).insert(Arc::new(7)).map(drop),
    ]
}

#[test]
fn forged_ids_find_nothing_and_change_nothing() -> Result<(), Error> {
    forged_ids_in(1)?;
    forged_ids_in(100)
}

fn forged_ids_in(parts: u32) -> Result<(), Error> {
    let (registry, mut drain) = compact().parts(parts).build()?;
    let held: Vec<Span> = (0..5).map(|_| span(&registry, "a")).collect();
    let ids: Vec<Option<Id>> = held.iter().map(Span::id).collect();
    let _inside = held[0].try_enter()?;
    // In each part the thread takes a number where it has none.
    let still = |counts: span_registry::Counts| (counts.made, counts.closed, counts.calls, counts.held, counts.owed);
    let before = still(registry.counts());
    let mut random = Random(7);
    for _ in 0..many(20_000) {
        let number = random.next() >> random.below(64);
        let forged = registry.id(number).filter(|id| !ids.contains(&Some(*id)));
        let Some(id) = forged else {
            continue;
        };
        assert_eq!(registry.find(id), None);
        assert_eq!(of_all_calls(&registry, id), [const { Err(Error::Unknown) }; 10], "{id}");
    }
    assert_eq!(still(registry.counts()), before);
    assert_eq!(texts(&mut drain).len(), 6);
    Ok(())
}

#[test]
fn the_ids_of_a_thousand_registries_are_told_apart() -> Result<(), Error> {
    let (registry, _drain) = compact().build()?;
    let a = span(&registry, "a");
    let inside = a.try_enter()?;
    let before = registry.counts();
    let mut kept = Vec::new();
    for number in 0..many(1000) {
        let (other, drain) = compact().slots(2).build()?;
        let b = span(&other, "b");
        let id = b.id().expect("wanted");
        // Of one that is still there, and of one that is gone.
        if number % 2 == 0 {
            kept.push((b, drain));
        }
        assert_eq!(of_all_calls(&registry, id), [const { Err(Error::OtherRegistry) }; 10]);
        assert_eq!((registry.find(id), Some(id) == a.id()), (None, false));
    }
    assert_eq!(registry.counts(), before);
    drop(inside);
    Ok(())
}

#[test]
fn a_handle_given_back_twice_is_refused_the_second_time() -> Result<(), Error> {
    let (registry, mut drain) = compact().build()?;
    let a = span(&registry, "a");
    let id = a.id().expect("wanted");
    assert_eq!(registry.try_close(id), Ok(true));
    assert_eq!(registry.try_close(id), Err(Error::Unknown));
    assert_eq!(registry.close_or_owe(id), Err(Error::Unknown));
    assert_eq!(a.record(&[("k", "v")]).in_scope(|| 1), 1);
    drop(a);
    assert_eq!(registry.lost().to_string(), "unknown=2");
    let wanted = ["new 1 w0 a", "close 1 w0 a", "event 0 w1 - WARN lost unknown=2"];
    assert_eq!(texts(&mut drain), wanted);
    Ok(())
}

#[test]
fn what_is_owed_by_ids_is_no_more_than_what_is_held() -> Result<(), Error> {
    let (registry, mut drain) = compact().ring(2).build()?;
    let id = registry.new_span(&info("a"), Parent::Root, &[])?.expect("wanted");
    registry.enter(id)?;
    let mut accepted = [0; 2];
    for _ in 0..many(2_000_000) {
        accepted[0] += u32::from(registry.close_or_owe(id).is_ok());
        accepted[1] += u32::from(registry.exit_or_owe(id).is_ok());
    }
    assert_eq!((accepted, registry.counts().owed), ([1, 1], 2));
    assert_eq!(registry.event(&info("m"), "m", &[]), Err(Error::Backlog));
    drain.lines().for_each(drop);
    assert_empty(&registry);
    Ok(())
}

#[test]
fn forgotten_guards_and_spans_leave_only_themselves() -> Result<(), Error> {
    let (registry, mut drain) = compact().ring(4096).build()?;
    let there = registry.clone();
    let forgetting = thread::spawn(move || {
        for _ in 0..100 {
            let a = span(&there, "a");
            std::mem::forget(a.enter());
            std::mem::forget(a.clone());
        }
    });
    forgetting.join().expect("no panic");
    // A clone of each handle was forgotten, and the end of the thread left the spans.
    let counts = registry.counts();
    assert_eq!((counts.open, counts.held, counts.owed), (100, 100, 0));
    assert_eq!((counts.threads, texts(&mut drain).len()), (0, 300));
    Ok(())
}

#[test]
fn a_thread_that_is_inside_nothing_owes_no_exit() -> Result<(), Error> {
    let (registry, _drain) = compact().workers(2).build()?;
    let a = span(&registry, "a");
    let inside = a.try_enter()?;
    let (there, id) = (registry.clone(), a.id().expect("wanted"));
    let asking = thread::spawn(move || [there.exit_or_owe(id), there.exit(id).map(drop), there.exit_or_owe(id)]);
    assert_eq!(asking.join().expect("no panic"), [const { Err(Error::NotEntered) }; 3]);
    assert_eq!(registry.find(id).map(|found| found.entries), Some(1));
    drop(inside);
    Ok(())
}

/// A writer that makes calls for each line that it is given, and then fails.
struct Calling(Registry);

impl Write for Calling {
    fn write(&mut self, bytes: &[u8]) -> io::Result<usize> {
        let a = self
            .0
            .span(&info("inner"), Parent::Root, &[])
            .map_err(io::Error::other)?;
        a.in_scope(|| event!(self.0, Level::Info, "m"));
        if bytes.ends_with(b"last\n") {
            return Err(io::Error::other("on purpose"));
        }
        Ok(bytes.len())
    }

    fn flush(&mut self) -> io::Result<()> {
        self.0.settle().map_err(io::Error::other)
    }
}

#[test]
fn a_writer_may_call_the_registry_and_fail() -> Result<(), Error> {
    let layer = span_registry::Layer::compact().with_span_events(span_registry::FmtSpan::NONE);
    let (registry, mut drain) = Registry::builder().workers(1).ring(64).layer(layer).build()?;
    for message in ["first", "last"] {
        event!(registry, Level::Info, "{message}");
    }
    let failed = drain
        .write_to(&mut Calling(registry.clone()))
        .expect_err("the second fails");
    assert_eq!(failed.to_string(), "on purpose");
    // The line whose write failed stays the next one.
    assert_eq!(
        drain.line().map(|line| line.text),
        Some("event 0 w0 - INFO last".to_owned())
    );
    assert_eq!(
        texts(&mut drain),
        ["event 1 w0 inner INFO m", "event 16777217 w0 inner INFO m"]
    );
    assert_empty(&registry);
    Ok(())
}
