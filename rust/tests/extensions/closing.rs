//! That what a span carries is let go of exactly when it has closed, whatever closed it.
use crate::common::{assert_empty, compact, info, span, texts};
use crate::{carry, id_of, is_there, Value};
use span_registry::{Drain, Error, Id, OnFull, Parent, Registry, Span};
use std::sync::{Arc, Weak};
use std::thread;

struct Watched {
    registry: Registry,
    spans: Vec<(Id, Weak<Value>)>,
}

impl Watched {
    fn of(registry: &Registry, spans: &[&Span]) -> Watched {
        Watched {
            registry: registry.clone(),
            spans: spans
                .iter()
                .map(|span| (id_of(span), carry(span.extensions())))
                .collect(),
        }
    }

    /// So many of the spans, the last ones, have closed, and what each of these carried is gone, and no other's.
    fn assert_closed(&self, count: usize) {
        let gone: Vec<bool> = self.spans.iter().map(|(_, seen)| !is_there(seen)).collect();
        let closed: Vec<bool> = self
            .spans
            .iter()
            .map(|&(id, _)| self.registry.find(id).is_none())
            .collect();
        assert_eq!(gone, closed);
        assert!(
            gone.iter()
                .rev()
                .zip(0..)
                .all(|(&is_gone, place)| is_gone == (place < count)),
            "{count}: {gone:?}"
        );
    }
}

/// A registry, and a chain of three of its spans, each the parent of the next.
fn three(parts: u32, ring: u32) -> Result<(Registry, Drain, [Span; 3]), Error> {
    let (registry, mut drain) = compact().parts(parts).ring(ring).build()?;
    let mut under = |parent: Option<&Span>| {
        drain.lines().for_each(drop);
        registry.span(&info("a"), Parent::from(parent.and_then(Span::id)), &[])
    };
    let a = under(None)?;
    let b = under(Some(&a))?;
    let c = under(Some(&b))?;
    drain.lines().for_each(drop);
    Ok((registry, drain, [a, b, c]))
}

#[test]
fn the_last_handle_closes_a_span() -> Result<(), Error> {
    for parts in [1, 2] {
        let (registry, _drain, [a, b, c]) = three(parts, 1024)?;
        let watched = Watched::of(&registry, &[&a, &b, &c]);
        let (shared, own) = (c.clone(), c.try_clone()?);
        drop(c);
        drop(shared);
        watched.assert_closed(0);
        drop(own);
        watched.assert_closed(1);
        assert_eq!(b.try_close(), Ok(true));
        watched.assert_closed(2);
        registry.try_close(id_of(&a))?;
        watched.assert_closed(3);
        assert_empty(&registry);
    }
    Ok(())
}

#[test]
fn an_exit_closes_a_span() -> Result<(), Error> {
    type Leaving = fn(&Registry, Span);
    let ways: [Leaving; 3] = [
        |registry, c| {
            let (id, inside) = (id_of(&c), c.entered());
            assert_eq!(registry.try_close(id), Ok(false));
            drop(inside);
        },
        |registry, c| {
            let id = id_of(&c);
            registry.enter(id).expect("open");
            drop(c);
            assert_eq!(registry.exit(id), Ok(true));
        },
        |registry, c| {
            let id = id_of(&c);
            registry.enter(id).expect("open");
            drop(c);
            registry.exit_or_owe(id).expect("entered");
        },
    ];
    for leave in ways {
        for parts in [1, 2] {
            let (registry, _drain, [a, b, c]) = three(parts, 1024)?;
            let watched = Watched::of(&registry, &[&a, &b, &c]);
            leave(&registry, c);
            watched.assert_closed(1);
            let inside = b.enter();
            watched.assert_closed(1);
            drop(inside);
            watched.assert_closed(1);
        }
    }
    Ok(())
}

#[test]
fn a_childs_end_closes_its_parents() -> Result<(), Error> {
    for parts in [1, 2] {
        let (registry, _drain, [a, b, c]) = three(parts, 1024)?;
        let watched = Watched::of(&registry, &[&a, &b, &c]);
        drop((a, b));
        watched.assert_closed(0);
        let inside = c.try_enter()?;
        drop(c.clone());
        drop(inside);
        watched.assert_closed(0);
        drop(c.entered());
        watched.assert_closed(3);
        assert_empty(&registry);
    }
    Ok(())
}

#[test]
fn the_end_of_a_thread_closes_what_it_is_inside_of() -> Result<(), Error> {
    let (registry, _drain, [a, b, c]) = three(1, 1024)?;
    let watched = Watched::of(&registry, &[&a, &b, &c]);
    drop((a, b));
    let forgetting = thread::spawn(move || std::mem::forget(c.clone().enter()));
    forgetting.join().expect("no panic");
    watched.assert_closed(3);
    assert_empty(&registry);
    Ok(())
}

#[test]
fn what_is_owed_is_not_closed() -> Result<(), Error> {
    type Paying = fn(&Registry, &mut Drain);
    let ways: [Paying; 4] = [
        |_, drain| assert!(drain.lines().count() > 0),
        |registry, drain| {
            drain.line().expect("the ring is full");
            registry.settle().expect("there is a place");
        },
        |registry, drain| {
            drain.line().expect("the ring is full");
            assert_eq!(registry.counts().owed, 0);
        },
        |_, drain| {
            drain.line().expect("the ring is full");
            assert_eq!(drain.open_spans().map(|open| open.len()), Ok(2));
        },
    ];
    for pay in ways {
        let (registry, mut drain, [a, b, c]) = three(1, 1)?;
        let watched = Watched::of(&registry, &[&a, &b, &c]);
        a.try_record(&[("k", "v")])?;
        drop(c);
        watched.assert_closed(0);
        assert_eq!(
            (registry.counts().owed, a.extensions().contains::<Value>()),
            (1, Ok(true))
        );
        pay(&registry, &mut drain);
        watched.assert_closed(1);
    }
    Ok(())
}

#[test]
fn a_thrown_away_line_is_no_close() -> Result<(), Error> {
    let (registry, _drain) = compact().ring(1).on_full(OnFull::DropOldest).build()?;
    let (a, b) = (span(&registry, "a"), span(&registry, "b"));
    let watched = Watched::of(&registry, &[&a, &b]);
    (0..9).try_for_each(|_| a.try_record(&[("k", "v")]))?;
    watched.assert_closed(0);
    drop(b);
    watched.assert_closed(1);
    Ok(())
}

/// A chain of so many spans, each the parent of the next, of which these carry something.
fn chain(
    registry: &Registry,
    drain: &mut Drain,
    length: usize,
    carries: impl Fn(usize) -> bool,
) -> (Vec<Span>, Watched) {
    let mut spans: Vec<Span> = Vec::new();
    for _ in 0..length {
        let parent = spans.last().and_then(Span::id);
        spans.push(registry.span(&info("a"), Parent::from(parent), &[]).expect("room"));
        drain.lines().for_each(drop);
    }
    let carrying = spans.iter().enumerate().filter(|&(place, _)| carries(place));
    let carrying: Vec<&Span> = carrying.map(|(_, span)| span).collect();
    let watched = Watched::of(registry, &carrying);
    (spans, watched)
}

#[test]
fn chains_that_close_at_once_let_go_of_all_that_they_carry() -> Result<(), Error> {
    let (registry, mut drain) = compact().slots(4096).build()?;
    let (beside, of_beside) = chain(&registry, &mut drain, 3, |_| true);
    for length in (1..=70).chain([127, 500, 2000]) {
        for step in [1, 3, length] {
            let (mut spans, watched) = chain(&registry, &mut drain, length, |place| place % step == 0);
            let last = spans.pop();
            // The outermost first.
            spans.into_iter().for_each(|span| {
                drop(span);
                drain.lines().for_each(drop);
            });
            watched.assert_closed(0);
            drop(last);
            watched.assert_closed(watched.spans.len());
            assert_eq!(texts(&mut drain).len(), length);
            // What others carry stays.
            of_beside.assert_closed(0);
        }
    }
    drop(beside);
    of_beside.assert_closed(3);
    assert_empty(&registry);
    Ok(())
}

#[test]
fn who_has_got_a_value_keeps_it() -> Result<(), Error> {
    let (registry, _drain) = compact().build()?;
    let a = span(&registry, "a");
    let seen = carry(a.extensions());
    let got = a.extensions().get::<Value>()?.expect("it is there");
    let id = id_of(&a);
    drop(a);
    assert_eq!(
        (registry.find(id), Arc::strong_count(&got), is_there(&seen)),
        (None, 1, true)
    );
    drop(got);
    assert!(!is_there(&seen));
    Ok(())
}

#[test]
fn what_is_open_where_the_registry_ends_carries_to_the_end() -> Result<(), Error> {
    for registry_first in [true, false] {
        let (registry, drain) = compact().build()?;
        let id = registry.new_span(&info("a"), Parent::Root, &[])?.expect("wanted");
        let seen = carry(registry.extensions(id));
        if registry_first {
            drop(registry);
            assert!(is_there(&seen));
            drop(drain);
        } else {
            drop(drain);
            assert!(is_there(&seen));
            drop(registry);
        }
        assert!(!is_there(&seen));
    }
    Ok(())
}
