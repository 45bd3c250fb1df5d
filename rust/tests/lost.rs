//! That logging never fails the program: what is refused is counted, by reason, and the rest goes on.
mod common;

use common::{assert_empty, compact, span, texts, Ids, LONG};
use span_registry::{event, span, try_event, try_span, Error, Level, Registry};
use std::panic::{catch_unwind, AssertUnwindSafe};
use std::sync::Mutex;
use std::thread;

#[test]
fn what_is_refused_is_counted_by_reason_and_told_once_there_is_room() -> Result<(), Error> {
    let (other, _other_drain) = compact().build()?;
    let stranger = span!(other, Level::Info, "stranger");
    let (registry, mut drain) = compact().slots(1).max_count(2).ring(3).build()?;
    let a = span!(registry, Level::Info, "a");
    let own = a.try_clone()?;
    event!(registry, Level::Info, "1");
    // The ring is full.
    assert!(span!(registry, Level::Info, LONG).is_disabled());
    assert!(span!(registry, parent: &stranger, Level::Info, "a").is_disabled());
    assert!(span!(registry, parent: span_registry::Parent::Root, Level::Info, "b").is_disabled());
    a.record(&[(LONG, "")]);
    assert!(!a.enter().is_first());
    event!(registry, Level::Info, { k = 2 }, "2");
    assert_eq!(a.record(&[("k", "v")]).in_scope(|| 3), 3);
    let lost = registry.lost();
    let reasons = "count_full=2 full=1 bad_name=2 backlog=2 other_registry=1";
    assert_eq!(lost.to_string(), reasons);
    assert_eq!(
        (lost.calls(), lost.by(&Error::Backlog), lost.by(&Error::Unknown)),
        (8, 2, 0)
    );
    assert_eq!(registry.clone().lost(), lost);
    assert_eq!(other.lost().calls(), 0);
    let told = format!("event 0 w1 - WARN lost {reasons}");
    assert_eq!(texts(&mut drain), ["new 1 w0 a", "event 0 w0 - INFO 1", &told]);
    // What is told is new.
    a.record(&[(LONG, "")]);
    event!(registry, Level::Info, "3");
    let wanted = ["event 0 w0 - INFO 3", "event 0 w1 - WARN lost bad_name=1"];
    assert_eq!(texts(&mut drain), wanted);
    assert_eq!(texts(&mut drain), [""; 0]);
    drop((a, own));
    assert_empty(&registry);
    Ok(())
}

#[test]
fn losses_are_told_to_layers_that_admit_them() -> Result<(), Error> {
    let layers = ["app=trace", "error", "span_registry=warn"].map(|targets| targets.parse().expect("targets"));
    let new = Registry::builder().workers(2).ring(3);
    let builder = layers.into_iter().fold(new, |builder, targets| {
        builder.layer(span_registry::Layer::json().with_targets(targets))
    });
    let (registry, mut drain) = builder.build()?;
    let a = span(&registry, "a");
    a.record(&[(LONG, "")]);
    let inside = a.try_enter()?;
    drop(inside);
    let lines: Vec<_> = drain.lines().map(|line| (line.layer, line.text)).collect();
    let told = concat!(
        r#"{"fields":[["bad_name","1"]],"id":0,"kind":"event","level":"WARN","message":"lost","path":"-","#,
        r#""worker":2}"#
    );
    assert_eq!(lines[2], (2, told.to_owned()));
    assert_eq!(lines.iter().filter(|(layer, _)| *layer > 0).count(), 1);
    Ok(())
}

#[test]
fn what_was_lost_is_written_at_the_end() -> Result<(), Box<dyn std::error::Error>> {
    let (registry, mut drain) = compact().build()?;
    drop(span!(registry, Level::Info, "a"));
    assert!(span!(registry, Level::Info, LONG).is_disabled());
    let mut out = Vec::new();
    drain.run_until(&mut out, &std::sync::atomic::AtomicBool::new(true))?;
    let out = String::from_utf8(out)?;
    assert_eq!(out, "new 1 w0 a\nclose 1 w0 a\nevent 0 w1 - WARN lost bad_name=1\n");
    Ok(())
}

#[test]
fn the_calls_that_answer_errors_count_nothing() -> Result<(), Error> {
    let (registry, _drain) = compact().ring(1).build()?;
    let a = span(&registry, "a");
    assert_eq!(try_span!(registry, Level::Info, "b").map(drop), Err(Error::Backlog));
    assert_eq!(try_event!(registry, Level::Info, "m"), Err(Error::Backlog));
    assert_eq!(a.try_enter().map(drop), Err(Error::Backlog));
    assert_eq!(a.try_in_scope(|| panic!("it doesn't run")), Err(Error::Backlog));
    assert_eq!(a.try_record(&[]), Err(Error::Backlog));
    assert_eq!(Ids(registry.clone()).event("m"), Err(Error::Backlog));
    assert_eq!(registry.lost().calls(), 0);
    Ok(())
}

#[test]
fn a_span_that_no_layer_wants_is_no_loss() -> Result<(), Error> {
    let layer = span_registry::Layer::json().with_max_level(Level::Error);
    let (registry, mut drain) = Registry::builder().ring(8).layer(layer).build()?;
    for _ in 0..100 {
        let a = span!(registry, Level::Info, "a");
        assert!(a.is_disabled() && !a.enter().is_first());
        assert_eq!(a.record(&[("", "")]).in_scope(|| 7), 7);
    }
    assert_eq!((registry.lost().calls(), drain.line()), (0, None));
    Ok(())
}

#[test]
fn a_scope_runs_wherever_it_is() -> Result<(), Error> {
    let (registry, _drain) = compact().ring(2).build()?;
    let a = span!(registry, Level::Info, "a");
    let mut runs = 0;
    for _ in 0..10 {
        a.in_scope(|| runs += 1);
    }
    let panics = catch_unwind(AssertUnwindSafe(|| a.in_scope(|| panic!("on purpose"))));
    assert!(panics.is_err());
    // The first entry had a place; its exit is owed.
    assert_eq!(
        (runs, registry.lost().by(&Error::Backlog), registry.counts().owed),
        (10, 10, 1)
    );
    Ok(())
}

#[test]
fn threads_without_a_number_lose_their_entries_and_go_on() -> Result<(), Error> {
    let (registry, mut drain) = compact().workers(1).build()?;
    let a = span!(registry, Level::Info, "a");
    let inside = a.try_enter()?;
    thread::scope(|scope| {
        scope.spawn(|| {
            assert_eq!(a.in_scope(|| 1), 1);
            event!(registry, Level::Info, "m");
            drop(span!(registry, Level::Info, "b"));
        });
    });
    assert_eq!(registry.lost().to_string(), "too_many_threads=1");
    drop(inside);
    let wanted = [
        "new 1 w0 a",
        "enter 1 w0 a",
        "event 0 w1 - INFO m",
        "event 0 w1 - WARN lost too_many_threads=1",
        "new 2 w1 b",
        "close 2 w1 b",
        "exit 1 w0 a",
    ];
    assert_eq!(texts(&mut drain), wanted);
    Ok(())
}

#[test]
fn what_a_value_locks_is_free_behind_the_macro() -> Result<(), Error> {
    let (registry, mut drain) = compact().build()?;
    let queue = Mutex::new("ab");
    let is_free = || queue.try_lock().is_ok();
    assert!(span!(registry, Level::Info, "a", n = queue.lock().expect("no panic").len()).in_scope(is_free));
    let was_free = match try_span!(registry, Level::Info, "b", n = queue.lock().expect("no panic").len()) {
        Ok(b) => b.in_scope(is_free),
        Err(error) => return Err(error),
    };
    assert!(was_free);
    if let Ok(()) = try_event!(
        registry,
        Level::Info,
        { n = queue.lock().expect("no panic").len() },
        "m"
    ) {
        assert!(is_free());
    }
    let lines = texts(&mut drain);
    assert_eq!(lines.iter().filter(|line| line.contains(" n=2")).count(), 5);
    assert_empty(&registry);
    Ok(())
}
