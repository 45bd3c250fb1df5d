//! That a span follows from another.
mod common;

use common::{assert_empty, compact, id, span, texts};
use span_registry::{Error, Kind, Layer, Level, Parent, Registry, Span};

#[test]
fn a_span_follows_from_open_and_from_closed_ones() -> Result<(), Error> {
    let (registry, mut drain) = compact().build()?;
    let (a, b, c) = (span(&registry, "a"), span(&registry, "b"), span(&registry, "c"));
    let of_a = a.id().expect("wanted");
    drop(a);
    c.follows_from(&b).follows_from(of_a);
    c.try_follows_from(&c.clone())?;
    // It holds nothing.
    let found = registry.find(c.id().expect("wanted")).expect("open");
    assert_eq!((found.count, found.parent), (1, None));
    drop((b, c));
    let wanted = [
        "new 1 w0 a",
        "new 2 w0 b",
        "new 3 w0 c",
        "close 1 w0 a",
        "record 3 w0 c follows_from=2",
        "record 3 w0 c follows_from=1",
        "record 3 w0 c follows_from=3",
        "close 2 w0 b",
        "close 3 w0 c follows_from=2 follows_from=1 follows_from=3",
    ];
    assert_eq!(texts(&mut drain), wanted);
    assert_empty(&registry);
    Ok(())
}

#[test]
fn what_is_disabled_follows_from_nothing() -> Result<(), Error> {
    let layer = Layer::compact().with_max_level(Level::Info);
    let (registry, mut drain) = Registry::builder().layer(layer).build()?;
    let (a, none) = (span(&registry, "a"), Span::none());
    let disabled = span_registry::span!(registry, Level::Trace, "b");
    assert!(disabled.is_disabled());
    a.follows_from(&disabled).follows_from(None);
    disabled.follows_from(&a);
    assert_eq!((none.try_follows_from(&a), a.try_follows_from(&none)), (Ok(()), Ok(())));
    assert_eq!((texts(&mut drain).len(), registry.lost().calls()), (1, 0));
    Ok(())
}

#[test]
fn trees_have_the_number_as_an_integer() -> Result<(), Error> {
    for parts in [1, 3] {
        let (registry, mut drain) = Registry::builder().parts(parts).layer(Layer::tree()).build()?;
        let (a, b) = (span(&registry, "a"), span(&registry, "b"));
        b.follows_from(&a);
        let note = drain.lines().nth(2).expect("a record").text;
        let number = a.id().expect("wanted").into_u64();
        assert!(note.contains(&format!("[[\"follows_from\",{number}]]")), "{note}");
        b.follows_from(&a);
        let note = drain.note().expect("a record");
        let field = &note.fields[0];
        assert_eq!(
            (note.id, &*field.key, field.kind),
            (b.id(), "follows_from", Kind::Integer)
        );
        assert_eq!(field.value, number.to_string());
    }
    Ok(())
}

#[test]
fn each_refusal_changes_nothing() -> Result<(), Error> {
    let (registry, mut drain) = compact().ring(2).build()?;
    let (other, _drain) = compact().build()?;
    let (a, stranger) = (span(&registry, "a"), span(&other, "a"));
    let (own, strange) = (a.id().expect("wanted"), stranger.id().expect("wanted"));
    assert_eq!(registry.follows_from(own, strange), Err(Error::OtherRegistry));
    assert_eq!(registry.follows_from(strange, own), Err(Error::OtherRegistry));
    // It comes before all else.
    assert_eq!(
        registry.follows_from(id(&registry, 7), strange),
        Err(Error::OtherRegistry)
    );
    assert_eq!(registry.follows_from(id(&registry, 7), own), Err(Error::Unknown));
    assert_eq!(a.try_follows_from(&stranger), Err(Error::OtherRegistry));
    a.follows_from(&stranger);
    assert_eq!(registry.lost().to_string(), "other_registry=1");
    assert_eq!(registry.counts().calls, 1);
    // That is told as soon as there is room.
    registry.settle()?;
    let filled = registry.event(&common::info("m"), "m", &[]);
    assert_eq!(filled, Ok(()));
    assert_eq!(registry.follows_from(own, own), Err(Error::Backlog));
    assert_eq!(texts(&mut drain)[..2], ["new 1 w0 a", "event 0 w0 - INFO m"]);
    let closed = registry
        .new_span(&common::info("b"), Parent::Root, &[])?
        .expect("wanted");
    registry.try_close(closed)?;
    drain.lines().for_each(drop);
    assert_eq!(registry.follows_from(closed, own), Err(Error::Unknown));
    Ok(())
}
