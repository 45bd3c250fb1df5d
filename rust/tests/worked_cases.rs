//! Calls whose answers and lines are worked out by hand from the rules.
mod common;

use common::{assert_empty, compact, id, info, layered, texts, Ids, LONG};
use span_registry::{BadLimit, Error, FmtSpan, Layer, Level, Limit, Meta, Parent, Registry, Targets};

const LIFE: [&str; 6] = [
    "new 1 w0 a",
    "enter 1 w0 a",
    "record 1 w0 a k=v",
    "event 1 w0 a INFO m",
    "exit 1 w0 a",
    "close 1 w0 a k=v",
];

#[test]
fn a_spans_life_by_ids() -> Result<(), Error> {
    let (registry, mut drain) = compact().build()?;
    let ids = Ids(registry);
    assert_eq!(ids.make("a"), Ok(1));
    ids.clone_span(1)?;
    assert_eq!(ids.enter(1), Ok(true));
    ids.record(1, &[("k", "v")])?;
    ids.event("m")?;
    assert_eq!(ids.find(1), Some((0, 2, 1, 3)));
    assert_eq!(ids.close(1), Ok(false));
    assert_eq!(ids.exit(1), Ok(false));
    assert_eq!(ids.close(1), Ok(true));
    assert_eq!(ids.find(1), None);
    let counts = ids.0.counts();
    assert_eq!((counts.calls, counts.made, counts.closed), (8, 1, 1));
    assert_empty(&ids.0);
    assert_eq!(texts(&mut drain), LIFE);
    assert_eq!((drain.counts().batches, drain.counts().missed), (8, 0));
    Ok(())
}

#[test]
fn a_spans_life_by_handles() -> Result<(), Error> {
    let (registry, mut drain) = compact().build()?;
    let first = registry.span(&info("a"), Parent::Current, &[])?;
    assert_eq!(first.id(), Some(id(&registry, 1)));
    let second = first.try_clone()?;
    let inside = first.try_enter()?;
    assert!(inside.is_first());
    first.try_record(&[("k", "v")])?;
    registry.event(&Meta::event(Level::Info, "app"), "m", &[])?;
    let found = registry.find(id(&registry, 1)).expect("open");
    assert_eq!((found.handles, found.entries, found.count), (2, 1, 3));
    assert_eq!((found.parent, found.level), (None, Level::Info));
    assert!(!second.try_close().expect("not refused"));
    drop(inside);
    assert!(first.try_close().expect("not refused"));
    assert_eq!(registry.counts().calls, 8);
    assert_empty(&registry);
    assert_eq!(texts(&mut drain), LIFE);
    Ok(())
}

#[test]
fn two_layers_write_two_forms() -> Result<(), Error> {
    let (registry, mut drain) = Registry::builder()
        .layer(Layer::json())
        .layer(Layer::compact())
        .build()?;
    let span = registry.span(&info("a"), Parent::Current, &[("k", "1")])?;
    span.try_record(&[("k", "2")])?;
    registry.event(&Meta::event(Level::Warn, "app"), "x\ny", &[])?;
    drop(span);
    let wanted = [
        r#"L0 {"fields":[["k","1"]],"id":1,"kind":"new","path":"a","worker":0}"#,
        "L1 new 1 w0 a k=1",
        r#"L0 {"fields":[["k","2"]],"id":1,"kind":"record","path":"a","worker":0}"#,
        "L1 record 1 w0 a k=2",
        r#"L0 {"fields":[],"id":0,"kind":"event","level":"WARN","message":"x\ny","path":"-","worker":0}"#,
        r"L1 event 0 w0 - WARN x\ny",
        r#"L0 {"fields":[["k","1"],["k","2"]],"id":1,"kind":"close","path":"a","worker":0}"#,
        "L1 close 1 w0 a k=1 k=2",
    ];
    assert_eq!(layered(&mut drain), wanted);
    Ok(())
}

#[test]
fn texts_of_any_letters_come_through() -> Result<(), Error> {
    let (registry, mut drain) = Registry::builder()
        .layer(Layer::json())
        .layer(Layer::compact())
        .build()?;
    let message = "\u{0}\t\"\\ \r\n é 漢 🦀";
    registry.event(
        &Meta::event(Level::Info, "ein Ziel, ungewöhnlich"),
        message,
        &[("k", "ü")],
    )?;
    let wanted = [
        concat!(
            r#"L0 {"fields":[["k","ü"]],"id":0,"kind":"event","level":"INFO","#,
            r#""message":"\u0000\t\"\\ \r\n é 漢 🦀","path":"-","worker":0}"#
        ),
        "L1 event 0 w0 - INFO \u{0}\t\"\\\\ \\r\\n é 漢 🦀 k=ü",
    ];
    assert_eq!(layered(&mut drain), wanted);
    Ok(())
}

#[test]
fn a_parent_closes_after_its_children() -> Result<(), Error> {
    let (registry, mut drain) = Registry::builder()
        .layer(Layer::compact().with_span_events(FmtSpan::CLOSE))
        .build()?;
    let ids = Ids(registry);
    assert_eq!(ids.make("a"), Ok(1));
    assert_eq!(ids.make_under("b", Parent::Of(ids.id(1))), Ok(2));
    assert_eq!(ids.make_under("c", Parent::Of(ids.id(2))), Ok(3));
    assert_eq!((ids.close(1), ids.close(2)), (Ok(false), Ok(false)));
    assert_eq!(ids.find(2), Some((1, 0, 0, 1)));
    assert_eq!(ids.close(3), Ok(true));
    assert_eq!(
        texts(&mut drain),
        ["close 3 w0 a:b:c", "close 2 w0 a:b", "close 1 w0 a"]
    );
    assert_empty(&ids.0);
    Ok(())
}

#[test]
fn an_entry_that_repeats_holds_nothing() -> Result<(), Error> {
    let (registry, mut drain) = compact().build()?;
    let ids = Ids(registry);
    ids.make("a")?;
    assert_eq!((ids.enter(1), ids.enter(1)), (Ok(true), Ok(false)));
    assert_eq!(ids.find(1), Some((0, 1, 1, 2)));
    assert_eq!(
        (ids.close(1), ids.exit(1), ids.exit(1)),
        (Ok(false), Ok(false), Ok(true))
    );
    let wanted = [
        "new 1 w0 a",
        "enter 1 w0 a",
        "enter 1 w0 a",
        "exit 1 w0 a",
        "exit 1 w0 a",
        "close 1 w0 a",
    ];
    assert_eq!(texts(&mut drain), wanted);
    Ok(())
}

#[test]
fn the_current_span_is_the_innermost_that_does_not_repeat() -> Result<(), Error> {
    let (registry, _drain) = Registry::builder().build()?;
    assert_eq!(registry.current_span(), Ok(None));
    let ids = Ids(registry);
    assert_eq!((ids.make("a"), ids.make("b")), (Ok(1), Ok(2)));
    assert_eq!(
        (ids.enter(1), ids.enter(2), ids.enter(1)),
        (Ok(true), Ok(true), Ok(false))
    );
    assert_eq!(ids.0.current_span(), Ok(Some(ids.id(2))));
    assert_eq!(ids.make("c"), Ok(3));
    assert_eq!(ids.find(3), Some((2, 1, 0, 1)));
    assert_eq!(ids.make_under("d", Parent::Root), Ok(4));
    assert_eq!(ids.find(4), Some((0, 1, 0, 1)));
    Ok(())
}

#[test]
fn each_layer_sees_the_spans_that_it_admits() -> Result<(), Error> {
    let only_new = Layer::compact().with_span_events(FmtSpan::NEW);
    let of_app = only_new.clone().with_targets("app=info".parse().expect("a directive"));
    let (registry, mut drain) = Registry::builder().layer(only_new).layer(of_app).build()?;
    let ids = Ids(registry);
    ids.make("a")?;
    ids.enter(1)?;
    let other = ids
        .0
        .new_span(&Meta::new(Level::Info, "lib", "q"), Parent::Current, &[])?;
    assert_eq!(other, Some(ids.id(2)));
    ids.enter(2)?;
    ids.make("c")?;
    ids.0.event(&Meta::event(Level::Info, "app"), "hi", &[("k", "v")])?;
    let wanted = [
        "L0 new 1 w0 a",
        "L1 new 1 w0 a",
        "L0 new 2 w0 a:q",
        "L0 new 3 w0 a:q:c",
        "L1 new 3 w0 a:c",
        "L0 event 2 w0 a:q INFO hi k=v",
        "L1 event 1 w0 a INFO hi k=v",
    ];
    assert_eq!(layered(&mut drain), wanted);
    Ok(())
}

#[test]
fn the_longest_prefix_decides_and_of_equal_ones_the_later() -> Result<(), Error> {
    let pairs = [("app", Level::Error), ("app.db", Level::Trace), ("app", Level::Info)];
    let add = |targets: Targets, (prefix, level): (&str, Level)| targets.with_target(prefix, level);
    let targets = pairs.into_iter().fold(Targets::new(), add);
    let (registry, mut drain) = Registry::builder()
        .layer(Layer::compact().with_targets(targets))
        .build()?;
    for (target, level, is_admitted) in [
        ("app", Level::Info, true),
        ("app", Level::Debug, false),
        ("app.db", Level::Debug, true),
        ("apple", Level::Info, true),
        ("web", Level::Error, false),
    ] {
        let made = registry.new_span(&Meta::new(level, target, "a"), Parent::Root, &[])?;
        assert_eq!(made.is_some(), is_admitted, "{target} {level}");
        registry.event(&Meta::event(level, target), "m", &[])?;
        assert_eq!(
            texts(&mut drain).len(),
            if is_admitted { 2 } else { 0 },
            "{target} {level}"
        );
    }
    Ok(())
}

#[test]
fn a_span_that_no_layer_wants_is_disabled() -> Result<(), Error> {
    let layer = Layer::compact().with_targets(Targets::new().with_target("app", Level::Warn));
    let (registry, mut drain) = Registry::builder().layer(layer).build()?;
    let span = registry.span(&info("a"), Parent::Current, &[])?;
    assert!(span.is_disabled());
    assert_eq!(span.id(), None);
    span.try_record(&[("not a name", "v")])?;
    assert!(!span.try_enter()?.is_first());
    assert_eq!(span.in_scope(|| 7), 7);
    assert!(span.try_clone()?.is_disabled());
    assert!(!span.clone().try_close().expect("not refused"));
    let under = registry.span(&Meta::new(Level::Error, "app", "b"), Parent::from(&span), &[])?;
    assert_eq!(registry.find(under.id().expect("wanted")).expect("open").parent, None);
    drop((under, span));
    assert_eq!(texts(&mut drain), ["new 1 w0 b", "close 1 w0 b"]);
    assert_eq!(registry.counts().calls, 2);
    Ok(())
}

#[test]
fn of_several_refusals_the_first_in_order_is_answered() -> Result<(), Error> {
    let (registry, _drain) = Registry::builder().max_count(1).slots(1).build()?;
    let ids = Ids(registry);
    assert_eq!(ids.make("a"), Ok(1));
    let before = ids.0.counts();
    assert_eq!(ids.make_under(LONG, Parent::Of(ids.id(1))), Err(Error::bad_name(LONG)));
    assert_eq!(ids.make_under("b", Parent::Of(ids.id(2))), Err(Error::Unknown));
    assert_eq!(ids.make_under("b", Parent::Of(ids.id(1))), Err(Error::CountFull));
    assert_eq!(ids.make_under("b", Parent::Root), Err(Error::Full));
    assert_eq!(ids.clone_span(1), Err(Error::CountFull));
    assert_eq!(ids.enter(1), Err(Error::CountFull));
    assert_eq!(ids.exit(2), Err(Error::Unknown));
    assert_eq!(ids.exit(1), Err(Error::NotEntered));
    assert_eq!(ids.record(1, &[("k", "v"), (LONG, "v")]), Err(Error::bad_name(LONG)));
    assert_eq!(ids.0.counts(), before);
    assert_eq!(ids.find(1), Some((0, 1, 0, 1)));
    Ok(())
}

#[test]
fn a_stale_id_finds_nothing() -> Result<(), Error> {
    let (registry, _drain) = Registry::builder().slots(1).build()?;
    let ids = Ids(registry);
    assert_eq!(ids.make("a"), Ok(1));
    assert_eq!(ids.close(1), Ok(true));
    assert_eq!(ids.make("b"), Ok(16_777_217));
    assert_eq!(ids.exit(1), Err(Error::Unknown));
    assert_eq!(ids.exit(16_777_217), Err(Error::NotEntered));
    assert_eq!(ids.make_under("c", Parent::Of(ids.id(1))), Err(Error::Unknown));
    assert_eq!(
        (ids.close(1), ids.clone_span(1)),
        (Err(Error::Unknown), Err(Error::Unknown))
    );
    assert_eq!(
        (ids.enter(1), ids.record(1, &[])),
        (Err(Error::Unknown), Err(Error::Unknown))
    );
    assert_eq!(ids.find(1), None);
    ids.clone_span(16_777_217)?;
    assert_eq!((ids.close(16_777_217), ids.close(16_777_217)), (Ok(false), Ok(true)));
    let counts = ids.0.counts();
    assert_eq!((counts.calls, counts.made, counts.closed, counts.open), (6, 2, 2, 0));
    Ok(())
}

#[test]
fn ids_that_were_never_given_are_unknown() -> Result<(), Error> {
    let (registry, _drain) = Registry::builder().build()?;
    for number in [1, 1 << 24, (1 << 24) + 1, 1 << 56] {
        assert_eq!(
            registry.try_close(id(&registry, number)),
            Err(Error::Unknown),
            "{number}"
        );
        assert_eq!(registry.find(id(&registry, number)), None, "{number}");
    }
    Ok(())
}

#[test]
fn a_slot_is_retired_at_its_last_generation() -> Result<(), Error> {
    let (registry, _drain) = Registry::builder().slots(1).last_generation(1).build()?;
    let ids = Ids(registry);
    for number in [1, 16_777_217] {
        assert_eq!(ids.make("a"), Ok(number));
        assert_eq!(ids.close(number), Ok(true));
    }
    assert_eq!(ids.make("a"), Err(Error::Full));
    Ok(())
}

#[test]
fn names_have_64_bytes_at_most() -> Result<(), Error> {
    let (registry, _drain) = Registry::builder().build()?;
    let ids = Ids(registry);
    assert_eq!(ids.make(&"x".repeat(64)), Ok(1));
    for name in [LONG, &" ".repeat(21)] {
        assert_eq!(ids.make(name), Err(Error::bad_name(name)), "{name:?}");
    }
    Ok(())
}

#[test]
fn limits_and_layers_have_their_ranges() {
    let built = |builder: span_registry::RegistryBuilder| builder.build().map(|_| ());
    let new = Registry::builder;
    for (bad, limit, value) in [
        (new().slots(0), Limit::Slots, 0),
        (new().slots((1 << 24) + 1), Limit::Slots, (1 << 24) + 1),
        (new().max_count(0), Limit::MaxCount, 0),
        (new().workers(0), Limit::Workers, 0),
        (new().workers(65_537), Limit::Workers, 65_537),
        (new().workers(u32::MAX), Limit::Workers, u32::MAX),
        (new().ring(0).workers(2), Limit::Ring, 0),
        (new().ring(65_537), Limit::Ring, 65_537),
    ] {
        let refused = Error::BadLimits(BadLimit { limit, value });
        assert_eq!(built(bad.clone()), Err(refused), "{bad:?}");
    }
    for good in [
        new().slots(1).workers(65_536).ring(1),
        new().last_generation(0).max_count(1).ring(65_536),
    ] {
        assert_eq!(built(good.clone()), Ok(()), "{good:?}");
    }
    let layers = |count| (0..count).fold(new(), |builder, _| builder.layer(Layer::compact()));
    assert_eq!(built(layers(64)), Ok(()));
    assert_eq!(built(layers(65)), Err(Error::TooManyLayers));
}
