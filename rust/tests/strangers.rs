//! Ids, spans and parents of another registry: each call that takes one refuses it, and nothing has changed.
mod common;

use common::{assert_empty, compact, id, info, span, texts};
use span_registry::{try_event, try_span, Drain, Error, Id, Level, Meta, Parent, Registry, Span};

/// A registry with an open span, whose number is 1.
fn with_a_span() -> Result<(Registry, Drain, Span), Error> {
    let (registry, drain) = compact().build()?;
    let a = span(&registry, "a");
    Ok((registry, drain, a))
}

/// Ids of a registry that is gone and of one that is there, of a span that each had and of one that it never had; of
/// these numbers are the open spans of a third.
fn strangers() -> Result<(Registry, Vec<Id>), Error> {
    let (gone, _drain, of_gone) = with_a_span()?;
    let (there, _drain, of_there) = with_a_span()?;
    let mut ids: Vec<Id> = [&of_gone, &of_there].into_iter().filter_map(Span::id).collect();
    ids.push(id(&gone, 2));
    ids.push(id(&there, 2));
    Ok((there, ids))
}

fn assert_refused<T: std::fmt::Debug>(answer: Result<T, Error>) {
    assert_eq!(answer.map(drop), Err(Error::OtherRegistry));
}

#[test]
fn each_call_refuses_an_id_of_another_registry() -> Result<(), Error> {
    let (_there, strangers) = strangers()?;
    let (registry, mut drain, a) = with_a_span()?;
    let b = span(&registry, "b");
    let inside = a.try_enter()?;
    let before = registry.counts();
    for stranger in strangers {
        assert_refused(registry.record(stranger, &[("k", "v")]));
        assert_refused(registry.record(stranger, &[("no key", "v")]));
        assert_refused(registry.enter(stranger));
        assert_refused(registry.exit(stranger));
        assert_refused(registry.clone_span(stranger));
        assert_refused(registry.try_close(stranger));
        assert_refused(registry.exit_or_owe(stranger));
        assert_refused(registry.close_or_owe(stranger));
        assert_eq!(registry.find(stranger), None);
        assert_refused(registry.open_span(stranger));
        assert_refused(registry.extensions(stranger).contains::<u8>());
        assert_ne!(Some(stranger), a.id());
    }
    assert_eq!(registry.counts(), before);
    drop(inside);
    drop((b, a));
    assert_eq!(texts(&mut drain).len(), 6);
    assert_empty(&registry);
    Ok(())
}

#[test]
fn each_new_span_refuses_a_parent_of_another_registry() -> Result<(), Error> {
    let (there, strangers) = strangers()?;
    let of_there = span(&there, "a");
    let (registry, mut drain, a) = with_a_span()?;
    let place = registry.callsite(&info("b"))?;
    let parents = strangers.into_iter().map(Parent::Of).chain([Parent::from(&of_there)]);
    for parent in parents {
        assert_refused(registry.span(&info("b"), parent, &[]));
        assert_refused(registry.new_span(&info("b c"), parent, &[]));
        assert_refused(registry.span_at(&place, parent, &[]));
        assert_refused(registry.new_span_at(&place, parent, &[]));
        assert_refused(try_span!(registry, parent: parent, Level::Info, "b"));
    }
    assert_refused(try_span!(registry, parent: &of_there, Level::Info, "b"));
    assert_eq!(registry.counts().made, 1);
    let child = try_span!(registry.clone(), parent: &a, Level::Info, "b")?;
    assert_eq!(registry.find(child.id().expect("wanted")).expect("open").parent, a.id());
    assert_eq!(texts(&mut drain), ["new 1 w0 a", "new 2 w0 a:b"]);
    Ok(())
}

#[test]
fn each_event_refuses_a_parent_of_another_registry() -> Result<(), Error> {
    let (there, strangers) = strangers()?;
    let of_there = span(&there, "a");
    let (registry, mut drain, a) = with_a_span()?;
    let (meta, place) = (Meta::event(Level::Info, "app"), registry.callsite(&info("b"))?);
    let parents = strangers.into_iter().map(Parent::Of).chain([Parent::from(&of_there)]);
    for parent in parents {
        assert_refused(registry.event_in(&meta, parent, "m", &[]));
        assert_refused(registry.event_in(&meta, parent, "m", &[("no key", "v")]));
        assert_refused(registry.event_in_at(&place, parent, "m", &[]));
        assert_refused(try_event!(registry, parent: parent, Level::Info, "m"));
    }
    assert_eq!(registry.counts().calls, 1);
    registry.event_in(&meta, Parent::from(&a), "m", &[])?;
    registry.event_in_at(&place, Parent::from(&a), "n", &[])?;
    let wanted = ["new 1 w0 a", "event 1 w0 a INFO m", "event 1 w0 a INFO n"];
    assert_eq!(texts(&mut drain), wanted);
    Ok(())
}

#[test]
fn it_is_refused_before_all_else() -> Result<(), Error> {
    let (_there, strangers) = strangers()?;
    let (registry, _drain) = compact().ring(1).build()?;
    // It takes no worker's number.
    assert_refused(registry.try_close(strangers[0]));
    assert_eq!(registry.counts().threads, 0);
    // The ring is full, and something is owed.
    drop(span(&registry, "a"));
    assert_eq!(registry.counts().owed, 1);
    assert_refused(registry.enter(strangers[0]));
    assert_refused(registry.close_or_owe(strangers[1]));
    assert_eq!(registry.counts().owed, 1);
    Ok(())
}

#[test]
fn clones_of_a_registry_share_its_ids() -> Result<(), Error> {
    let (registry, _drain, a) = with_a_span()?;
    let clone = registry.clone();
    let number = a.id().expect("wanted").into_u64();
    assert_eq!(clone.id(number), a.id());
    clone.clone_span(id(&registry, number))?;
    assert_eq!(clone.try_close(id(&registry, number)), Ok(false));
    Ok(())
}
