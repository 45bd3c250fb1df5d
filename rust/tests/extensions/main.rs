//! What spans carry of the program's own: whose it is, when it is let go of, and what it may do then.
mod closing;
#[path = "../common/mod.rs"]
mod common;
mod dropping;
mod memory;
mod sharing;

use common::{assert_empty, compact, id, info, span};
use span_registry::{Error, Extensions, Id, Layer, Level, Parent, Registry, Span};
use std::sync::{Arc, Weak};

/// A value, and whether somebody has it still.
fn value() -> (Arc<Value>, Weak<Value>) {
    let value = Arc::new(Value);
    let seen = Arc::downgrade(&value);
    (value, seen)
}

struct Value;

fn is_there<T>(seen: &Weak<T>) -> bool {
    seen.strong_count() > 0
}

/// The span carries a value, which nobody else has.
fn carry(extensions: Extensions<'_>) -> Weak<Value> {
    let (value, seen) = value();
    assert_eq!(extensions.insert(value), Ok(true));
    assert_eq!(seen.strong_count(), 1);
    seen
}

fn id_of(span: &Span) -> Id {
    span.id().expect("wanted")
}

#[test]
fn a_span_carries_one_value_of_each_type() -> Result<(), Error> {
    for parts in [1, 3] {
        let (registry, _drain) = compact().parts(parts).build()?;
        let (a, b) = (span(&registry, "a"), span(&registry, "b"));
        let here = a.extensions();
        assert_eq!(
            (here.contains::<u32>(), here.get::<u32>(), here.remove::<u32>()),
            (Ok(false), Ok(None), Ok(None))
        );
        assert_eq!(
            (here.insert(Arc::new(1_u32)), here.insert(Arc::new("text"))),
            (Ok(true), Ok(true))
        );
        assert_eq!(here.replace(Arc::new(String::from("s"))), Ok(None));
        // The first one stays.
        assert_eq!(here.insert(Arc::new(2_u32)), Ok(false));
        let there = registry.extensions(id_of(&a));
        assert_eq!(
            (there.get(), there.get()),
            (Ok(Some(Arc::new(1_u32))), Ok(Some(Arc::new("text"))))
        );
        assert_eq!(there.replace(Arc::new(3_u32)), Ok(Some(Arc::new(1))));
        assert_eq!(
            (here.get(), here.contains::<u32>()),
            (Ok(Some(Arc::new(3_u32))), Ok(true))
        );
        assert_eq!(
            (here.remove(), here.get::<u32>()),
            (Ok(Some(Arc::new(3_u32))), Ok(None))
        );
        assert_eq!(
            (
                here.contains::<&str>(),
                here.contains::<String>(),
                here.contains::<u64>()
            ),
            (Ok(true), Ok(true), Ok(false))
        );
        assert_eq!(
            (here.insert(Arc::new(4_u32)), here.get()),
            (Ok(true), Ok(Some(Arc::new(4_u32))))
        );
        // Of another span, also of one that shares it.
        assert_eq!(b.extensions().contains::<u32>(), Ok(false));
        assert_eq!(
            b.extensions().insert(here.get::<String>()?.expect("it is there")),
            Ok(true)
        );
        assert!(Arc::ptr_eq(
            &here.get::<String>()?.expect("there"),
            &b.extensions().get()?.expect("here")
        ));
        drop(a);
        assert_eq!(b.extensions().get(), Ok(Some(Arc::new(String::from("s")))));
        // None of it is a call that takes a place of the ring.
        assert_eq!(registry.counts().calls, 3);
    }
    Ok(())
}

#[test]
fn what_is_put_is_what_is_got() -> Result<(), Error> {
    let (registry, _drain) = compact().build()?;
    let a = span(&registry, "a");
    let (first, seen) = value();
    assert_eq!(
        (a.extensions().insert(Arc::clone(&first)), Arc::strong_count(&first)),
        (Ok(true), 2)
    );
    assert!(a.extensions().get()?.is_some_and(|got| Arc::ptr_eq(&got, &first)));
    let (second, seen_second) = value();
    assert_eq!(
        (a.extensions().insert(second), is_there(&seen_second)),
        (Ok(false), false)
    );
    let (third, seen_third) = value();
    let replaced = a.extensions().replace(third)?.expect("the first one");
    assert!(Arc::ptr_eq(&replaced, &first));
    drop((first, replaced));
    assert_eq!((is_there(&seen), seen_third.strong_count()), (false, 1));
    let removed = a.extensions().remove::<Value>()?;
    assert_eq!((removed.is_some(), seen_third.strong_count()), (true, 1));
    drop(removed);
    assert!(!is_there(&seen_third));
    Ok(())
}

/// What each call answers that a closed span's or another registry's id is given.
fn assert_refused(extensions: Extensions<'_>, error: &Error) {
    let (value, seen) = value();
    assert_eq!(extensions.insert(Arc::clone(&value)), Err(error.clone()));
    assert_eq!(
        extensions.replace(value).map(|value| value.is_some()),
        Err(error.clone())
    );
    assert_eq!(
        extensions.get::<Value>().map(|value| value.is_some()),
        Err(error.clone())
    );
    assert_eq!(
        extensions.remove::<Value>().map(|value| value.is_some()),
        Err(error.clone())
    );
    assert_eq!(extensions.contains::<Value>(), Err(error.clone()));
    assert!(!is_there(&seen));
}

#[test]
fn another_registrys_id_is_refused_and_so_is_that_of_a_span_that_is_not_open() -> Result<(), Error> {
    for parts in [1, 2] {
        let (registry, _drain) = compact().parts(parts).build()?;
        let (other, _other_drain) = compact().parts(parts).build()?;
        let (a, stranger) = (span(&registry, "a"), span(&other, "a"));
        let (of_a, of_stranger) = (carry(a.extensions()), carry(stranger.extensions()));
        assert_refused(registry.extensions(id_of(&stranger)), &Error::OtherRegistry);
        assert_refused(other.extensions(id_of(&a)), &Error::OtherRegistry);
        let stranger_id = id_of(&stranger);
        drop((stranger, other));
        assert_refused(registry.extensions(stranger_id), &Error::OtherRegistry);
        // Never open, not open any longer, and given back by its id.
        let a_id = id_of(&a);
        assert_refused(registry.extensions(id(&registry, 77)), &Error::Unknown);
        assert_eq!((is_there(&of_a), is_there(&of_stranger)), (true, false));
        assert_eq!((registry.try_close(a_id), is_there(&of_a)), (Ok(true), false));
        assert_refused(registry.extensions(a_id), &Error::Unknown);
        assert_refused(a.extensions(), &Error::Unknown);
    }
    Ok(())
}

#[test]
fn a_slots_next_span_carries_nothing_of_the_last() -> Result<(), Error> {
    let (registry, mut drain) = compact().slots(1).build()?;
    let mut last: Option<Id> = None;
    for generation in 0..9 {
        let a = span(&registry, "a");
        let here = id_of(&a);
        assert_eq!((here.slot(), here.generation()), (0, generation));
        assert_eq!(a.extensions().contains::<Value>(), Ok(false));
        // Some carry nothing.
        let seen = (generation % 3 > 0).then(|| carry(a.extensions()));
        if let Some(last) = last {
            assert_refused(registry.extensions(last), &Error::Unknown);
            assert!(seen.as_ref().is_none_or(is_there));
        }
        drop(a);
        assert!(!seen.as_ref().is_some_and(is_there));
        last = Some(here);
        drain.lines().for_each(drop);
    }
    assert_empty(&registry);
    Ok(())
}

#[test]
fn a_disabled_span_carries_nothing() -> Result<(), Error> {
    let layer = Layer::compact().with_max_level(Level::Info);
    let (registry, _drain) = Registry::builder().layer(layer).build()?;
    let disabled = span_registry::span!(registry, Level::Trace, "b");
    for disabled in [disabled, Span::none()] {
        let (value, seen) = value();
        let extensions = disabled.extensions();
        assert_eq!(
            (extensions.insert(Arc::clone(&value)), extensions.contains::<Value>()),
            (Ok(false), Ok(false))
        );
        assert!(extensions.replace(value)?.is_none() && extensions.get::<Value>()?.is_none());
        assert!(extensions.remove::<Value>()?.is_none() && !is_there(&seen));
    }
    assert_eq!((registry.counts().made, registry.lost().calls()), (0, 0));
    Ok(())
}

#[test]
fn the_ways_to_a_span_may_be_sent_and_say_whose_they_are() -> Result<(), Error> {
    fn is_shared<T: Send + Sync + Copy>(_: T) {}
    let (registry, _drain) = compact().build()?;
    let a = registry.span(&info("a"), Parent::Root, &[])?;
    is_shared(a.extensions());
    assert_eq!(
        format!("{:?} {:?}", a.extensions(), Span::none().extensions()),
        "Extensions(Some(1)) Extensions(None)"
    );
    // Also by a guard that owns the handle.
    let inside = a.entered();
    let seen = carry(inside.extensions());
    drop(inside);
    assert!(!is_there(&seen));
    Ok(())
}
