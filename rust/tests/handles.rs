//! Handles and guards: shared, cloned, sent to other threads, dropped in any order, and dropped by a panic.
mod common;

use common::{assert_empty, compact, id, span, texts, Ids};
use span_registry::{Callsite, Drain, Entered, Error, Guard, Parent, Registry, Span};
use std::collections::hash_map::DefaultHasher;
use std::hash::{BuildHasher, BuildHasherDefault};
use std::panic::{catch_unwind, AssertUnwindSafe};
use std::thread;

#[test]
fn what_threads_share_may_be_shared() {
    fn is_send_and_sync<T: Send + Sync>() {}
    is_send_and_sync::<Registry>();
    is_send_and_sync::<Span>();
    is_send_and_sync::<Callsite>();
    is_send_and_sync::<Error>();
    // What a shared one can be asked reads what is atomic or has a lock; all that reads lines takes `&mut`.
    is_send_and_sync::<Drain>();
    is_send_and_sync::<Guard>();
}

#[test]
fn clones_share_one_handle() -> Result<(), Error> {
    let (registry, mut drain) = compact().build()?;
    let a = span(&registry, "a");
    let clones: Vec<Span> = (0..10).map(|_| a.clone()).collect();
    assert_eq!(registry.find(id(&registry, 1)).expect("open").handles, 1);
    assert_eq!(registry.counts().calls, 1);
    assert!(!a.try_close().expect("not refused"));
    drop(clones);
    assert_eq!(texts(&mut drain), ["new 1 w0 a", "close 1 w0 a"]);
    assert_empty(&registry);
    Ok(())
}

#[test]
fn handles_of_the_same_span_are_equal() -> Result<(), Error> {
    let (registry, _drain) = compact().build()?;
    let (other, _of_other) = compact().build()?;
    let (a, b) = (span(&registry, "a"), span(&registry, "a"));
    let of_other = span(&other, "a");
    assert_eq!(of_other.id().map(|id| id.into_u64()), a.id().map(|id| id.into_u64()));
    assert_eq!((&a.clone(), &a.try_clone()?), (&a, &a));
    assert_eq!((Span::none(), Span::none()), (Span::none(), Span::default()));
    let others = [b, of_other, Span::none()];
    assert!(others.iter().all(|other| *other != a));
    let hasher = BuildHasherDefault::<DefaultHasher>::default();
    let hash = |span: &Span| hasher.hash_one(span);
    assert_eq!(hash(&a), hash(&a.try_clone()?));
    assert_eq!(hash(&Span::none()), hash(&Span::default()));
    assert!(others.iter().all(|other| hash(other) != hash(&a)));
    Ok(())
}

#[test]
fn a_clone_of_its_own_is_counted_and_may_be_refused() -> Result<(), Error> {
    let (registry, _drain) = compact().max_count(2).build()?;
    let a = span(&registry, "a");
    let b = a.try_clone()?;
    assert_eq!(registry.find(id(&registry, 1)).expect("open").handles, 2);
    assert_eq!(a.try_clone().map(|_| ()), Err(Error::CountFull));
    let _shared = a.clone();
    drop(b);
    drop(a.try_clone()?);
    assert_eq!(registry.find(id(&registry, 1)).expect("open").handles, 1);
    Ok(())
}

/// What is dropped: a span's handle, a second one of its own, a child's handle, and a clone that shares it.
fn hold(registry: &Registry) -> [Option<Span>; 4] {
    let a = span(registry, "a");
    let own = a.try_clone().expect("not refused");
    let child = registry
        .span(&common::info("b"), Parent::from(&a), &[])
        .expect("not refused");
    let shared = child.clone();
    [Some(a), Some(own), Some(child), Some(shared)]
}

#[test]
fn handles_are_dropped_in_any_order() -> Result<(), Error> {
    for order in 0..24usize {
        let (registry, mut drain) = compact().build()?;
        let mut held = hold(&registry);
        let mut left = vec![0, 1, 2, 3];
        for turn in [order / 6, order / 2 % 3, order % 2, 0] {
            held[left.remove(turn)] = None;
            let (a, b) = (
                held[0].is_some() || held[1].is_some(),
                held[2].is_some() || held[3].is_some(),
            );
            assert_eq!(registry.find(id(&registry, 2)).is_some(), b, "order {order}");
            assert_eq!(registry.find(id(&registry, 1)).is_some(), a || b, "order {order}");
        }
        let closes: Vec<_> = texts(&mut drain)
            .into_iter()
            .filter(|line| line.starts_with("close"))
            .collect();
        assert_eq!(closes, ["close 2 w0 a:b", "close 1 w0 a"], "order {order}");
        assert_empty(&registry);
    }
    Ok(())
}

#[test]
fn guards_are_dropped_in_any_order() -> Result<(), Error> {
    for order in 0..6usize {
        let (registry, mut drain) = compact().build()?;
        let (a, b) = (span(&registry, "a"), span(&registry, "b"));
        let mut guards: Vec<Option<Entered<'_>>> =
            vec![Some(a.try_enter()?), Some(b.try_enter()?), Some(a.try_enter()?)];
        assert_eq!(registry.current_span()?, b.id());
        let mut left = vec![0, 1, 2];
        for turn in [order / 2, order % 2, 0] {
            guards[left.remove(turn)] = None;
        }
        assert_eq!(registry.current_span()?, None, "order {order}");
        assert_eq!(
            texts(&mut drain).iter().filter(|line| line.starts_with("exit")).count(),
            3
        );
        drop(guards);
        drop((a, b));
        assert_empty(&registry);
    }
    Ok(())
}

#[test]
fn a_span_outlives_its_registrys_name() -> Result<(), Error> {
    let (registry, mut drain) = compact().build()?;
    let a = span(&registry, "a");
    drop(registry);
    assert!(!drain.is_over());
    a.try_in_scope(|| ())?;
    drop(a);
    assert!(drain.is_over());
    assert_eq!(
        texts(&mut drain),
        ["new 1 w0 a", "enter 1 w0 a", "exit 1 w0 a", "close 1 w0 a"]
    );
    Ok(())
}

#[test]
fn a_span_is_sent_to_another_thread_and_dropped_there() -> Result<(), Error> {
    let (registry, mut drain) = compact().workers(2).build()?;
    let a = span(&registry, "a");
    thread::spawn(move || drop(a)).join().expect("no panic");
    // A thread takes no number for that.
    assert_eq!(texts(&mut drain), ["new 1 w0 a", "close 1 w2 a"]);
    assert_empty(&registry);
    Ok(())
}

#[test]
fn a_panic_leaves_the_span_and_poisons_nothing() -> Result<(), Error> {
    let (registry, mut drain) = compact().build()?;
    let a = span(&registry, "a");
    let panicked = catch_unwind(AssertUnwindSafe(|| {
        let _inside = a.enter();
        let _b = span(&registry, "b");
        panic!("on purpose");
    }));
    assert!(panicked.is_err());
    assert_eq!(registry.current_span(), Ok(None));
    Ids(registry.clone()).event("after")?;
    drop(a);
    let wanted = [
        "new 1 w0 a",
        "enter 1 w0 a",
        "new 2 w0 a:b",
        "close 2 w0 a:b",
        "exit 1 w0 a",
        "event 0 w0 - INFO after",
        "close 1 w0 a",
    ];
    assert_eq!(texts(&mut drain), wanted);
    assert_empty(&registry);
    Ok(())
}

#[test]
fn a_panic_in_another_thread_leaves_the_span_there() -> Result<(), Error> {
    let (registry, _drain) = compact().workers(2).build()?;
    let a = span(&registry, "a");
    let there = registry.clone();
    let panicked = thread::spawn(move || {
        let _inside = a.enter();
        let _event = Ids(there).event("m");
        panic!("on purpose");
    });
    assert!(panicked.join().is_err());
    assert_empty(&registry);
    assert_eq!(registry.counts().threads, 1);
    Ok(())
}

#[test]
fn what_was_given_back_by_its_id_is_not_given_back_again() -> Result<(), Error> {
    let (registry, mut drain) = compact().build()?;
    let ids = Ids(registry.clone());
    let a = span(&registry, "a");
    let inside = a.try_enter()?;
    assert_eq!((ids.exit(1), ids.close(1)), (Ok(false), Ok(true)));
    drop(inside);
    let (a, error) = a.try_close().expect_err("its handle is gone");
    assert_eq!((a.is_disabled(), error), (true, Error::Unknown));
    drop(a);
    assert_eq!(
        texts(&mut drain),
        ["new 1 w0 a", "enter 1 w0 a", "exit 1 w0 a", "close 1 w0 a"]
    );
    assert_empty(&registry);
    Ok(())
}

#[test]
fn ids_show_their_number() -> Result<(), Error> {
    let (registry, _drain) = compact().build()?;
    for none in [0, (1 << 56) + 1, u64::MAX] {
        assert_eq!(registry.id(none), None);
    }
    assert_eq!(id(&registry, 1 << 56).into_u64(), 1 << 56);
    assert_eq!(id(&registry, 16_777_217).to_string(), "16777217");
    assert_eq!(id(&registry, 7).into_u64(), 7);
    Ok(())
}
