//! Guards that own the handle of the span that their thread is inside of.
mod common;

use common::{assert_empty, compact, span, texts, Ids};
use span_registry::{EnteredSpan, Error, Span};
use std::panic::{catch_unwind, AssertUnwindSafe};
use std::thread;

#[test]
fn the_span_is_left_and_then_given_back() -> Result<(), Error> {
    let (registry, mut drain) = compact().build()?;
    let inside = span(&registry, "a").entered();
    assert_eq!(registry.current_span()?, inside.id());
    assert!(inside.is_first());
    inside.record(&[("k", "v")]);
    // A guard of both kinds at once.
    let again = inside.enter();
    assert!(!again.is_first());
    drop(again);
    drop(inside);
    let wanted = [
        "new 1 w0 a",
        "enter 1 w0 a",
        "record 1 w0 a k=v",
        "enter 1 w0 a",
        "exit 1 w0 a",
        "exit 1 w0 a",
        "close 1 w0 a k=v",
    ];
    assert_eq!(texts(&mut drain), wanted);
    assert_empty(&registry);
    Ok(())
}

#[test]
fn an_exit_answers_the_handle() -> Result<(), Error> {
    let (registry, mut drain) = compact().build()?;
    let a = span(&registry, "a");
    let b = a.clone().entered().exit();
    assert_eq!((&a, registry.current_span()), (&b, Ok(None)));
    drop(a);
    assert_eq!(registry.counts().held, 1);
    assert!(b.try_close().expect("not refused"));
    assert_eq!(
        texts(&mut drain),
        ["new 1 w0 a", "enter 1 w0 a", "exit 1 w0 a", "close 1 w0 a"]
    );
    assert_empty(&registry);
    Ok(())
}

#[test]
fn they_are_dropped_in_any_order() -> Result<(), Error> {
    for order in 0..6usize {
        let (registry, mut drain) = compact().build()?;
        let (a, b) = (span(&registry, "a"), span(&registry, "b"));
        let spans = [a.try_clone()?, b, a];
        let mut guards: Vec<Option<EnteredSpan>> = spans.map(|span| Some(span.entered())).into();
        let mut left = vec![0, 1, 2];
        for turn in [order / 2, order % 2, 0] {
            guards[left.remove(turn)] = None;
        }
        let lines = texts(&mut drain);
        let of = |kind: &str| lines.iter().filter(|line| line.starts_with(kind)).count();
        assert_eq!((of("enter"), of("exit"), of("close")), (3, 3, 2), "order {order}");
        assert_eq!(registry.current_span()?, None, "order {order}");
        assert_empty(&registry);
    }
    Ok(())
}

#[test]
fn where_the_entry_is_refused_the_handle_stays() -> Result<(), Error> {
    let (registry, mut drain) = compact().max_count(1).build()?;
    let (a, error) = span(&registry, "a").try_entered().expect_err("its count is full");
    assert_eq!(error, Error::CountFull);
    let outside = a.entered();
    assert!(!outside.is_first() && !outside.is_disabled());
    assert_eq!(registry.current_span(), Ok(None));
    assert_eq!((registry.lost().by(&Error::CountFull), registry.lost().calls()), (1, 1));
    drop(outside);
    let lines = texts(&mut drain);
    let (told, of_spans): (Vec<_>, Vec<_>) = lines.into_iter().partition(|line| line.starts_with("event"));
    assert_eq!(of_spans, ["new 1 w0 a", "close 1 w0 a"]);
    assert_eq!(told, ["event 0 w1 - WARN lost count_full=1"]);
    assert_empty(&registry);
    let nothing = Span::none().try_entered().map_err(|(_, error)| error)?;
    assert!(!nothing.is_first() && nothing.exit().is_disabled());
    Ok(())
}

#[test]
fn what_its_drop_is_refused_is_owed() -> Result<(), Error> {
    let (registry, mut drain) = compact().ring(2).build()?;
    let inside = span(&registry, "a").try_entered().map_err(|(_, error)| error)?;
    drop(inside);
    assert_eq!(registry.counts().owed, 2);
    assert_eq!(
        texts(&mut drain),
        ["new 1 w0 a", "enter 1 w0 a", "exit 1 w0 a", "close 1 w0 a"]
    );
    assert_empty(&registry);
    Ok(())
}

#[test]
fn a_panic_leaves_the_span_and_gives_it_back() -> Result<(), Error> {
    let (registry, _drain) = compact().build()?;
    let panicked = catch_unwind(AssertUnwindSafe(|| {
        let _inside = span(&registry, "a").entered();
        panic!("on purpose");
    }));
    assert!(panicked.is_err());
    assert_empty(&registry);
    Ok(())
}

#[test]
fn one_that_is_kept_to_the_end_of_its_thread_is_left_there() -> Result<(), Error> {
    let (registry, _drain) = compact().workers(2).build()?;
    let a = span(&registry, "a");
    let there = a.clone();
    thread::spawn(move || std::mem::forget(there.entered()))
        .join()
        .expect("no panic");
    assert_eq!(registry.counts().held, 1);
    // The forgotten guard's clone shares the handle.
    let id = a.id().expect("wanted").into_u64();
    assert_eq!(Ids(registry.clone()).find(id), Some((0, 1, 0, 1)));
    Ok(())
}
