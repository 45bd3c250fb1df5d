//! Limits at their edges, long chains, small stacks, long texts.
use crate::common::{assert_empty, compact, info, texts};
use crate::many;
use span_registry::{event, retry, span, try_span, Error, Layer, Level, Parent, Registry, RegistryBuilder, Span};
use std::thread;

/// A span's life, and a call too many of each kind. Whatever is refused, nothing stays.
fn lives(builder: RegistryBuilder) -> Result<(), Error> {
    let (registry, mut drain) = builder.build()?;
    let reading = thread::spawn(move || drain.run(&mut std::io::sink()));
    for _ in 0..3 {
        let a = retry(|| try_span!(registry, Level::Info, "a", k = 1))?;
        let own = a.try_clone();
        let inside = (a.enter(), a.enter());
        let below = span!(registry, Level::Info, "b");
        event!(registry, Level::Info, "m");
        a.record(&[("k", "v"), ("", "")]);
        drop((inside, below, own));
        drop(a);
        retry(|| registry.settle())?;
        assert_empty(&registry);
    }
    drop(registry);
    reading.join().expect("no panic").expect("a sink takes all");
    Ok(())
}

#[test]
fn each_limit_may_be_the_least_and_the_greatest() -> Result<(), Error> {
    let new = || Registry::builder().layer(Layer::compact());
    lives(new().slots(1).ring(1).workers(1).max_count(1).last_generation(2))?;
    lives(new().slots(1).ring(1).workers(1))?;
    let greatest = new().ring(65_536).workers(65_536);
    lives(greatest.max_count(u32::MAX).last_generation(u32::MAX))?;
    lives((0..63).fold(new(), |builder, _| builder.layer(Layer::json())))?;
    lives(Registry::builder().slots(many(1 << 24)))?;
    lives(
        new()
            .parts(128)
            .slots(1)
            .ring(1)
            .workers(1)
            .max_count(1)
            .last_generation(2),
    )?;
    lives(new().parts(2).ring(65_536).workers(65_536))?;
    // The only slot is used up.
    let (registry, _drain) = Registry::builder().slots(1).last_generation(0).build()?;
    drop(registry.span(&info("a"), Parent::Root, &[])?);
    assert_eq!(registry.span(&info("a"), Parent::Root, &[]).map(drop), Err(Error::Full));
    Ok(())
}

#[test]
fn each_limit_beyond_its_range_is_refused() {
    let new = Registry::builder;
    let beyond = [
        new().slots(0),
        new().slots((1 << 24) + 1),
        new().max_count(0),
        new().workers(0),
        new().workers(65_537),
        new().ring(0),
        new().ring(65_537),
        new().parts(0),
        new().parts(129),
    ];
    for builder in beyond {
        assert_eq!(builder.build().map(drop).map_err(|error| error.number()), Err(8));
    }
    let layers = (0..65).fold(new(), |builder, _| builder.layer(Layer::json()));
    assert_eq!(layers.build().map(drop), Err(Error::TooManyLayers));
}

#[test]
fn texts_of_any_length_are_taken() -> Result<(), Error> {
    let (registry, mut drain) = Registry::builder().layer(Layer::json()).build()?;
    for length in [0, 1, 65_536, 10_000_000] {
        let text = "\u{1}".repeat(many(length) as usize);
        event!(registry, Level::Info, { k = text }, "{text}");
        let line = drain.line().expect("a line");
        assert!(line.text.len() > 12 * text.len());
    }
    let fields: Vec<(&str, &str)> = (0..many(100_000)).map(|_| ("key", "value")).collect();
    registry.event(&info("m"), "", &fields)?;
    let values = drain.line().map(|line| line.text.matches("value").count());
    assert_eq!(values, Some(fields.len()));
    Ok(())
}

/// Each a child of the one before, of which the last holds all others.
fn chain(registry: &Registry, spans: u32, mut read: impl FnMut()) -> Result<Span, Error> {
    let mut last = try_span!(registry, Level::Info, "a")?;
    for _ in 1..spans {
        last = try_span!(registry, parent: &last, Level::Info, "a")?;
        read();
    }
    Ok(last)
}

#[test]
fn a_chain_of_a_million_spans_closes_at_once() -> Result<(), Error> {
    let spans = many(1_000_000);
    let (registry, mut drain) = Registry::builder().slots(spans).build()?;
    let last = chain(&registry, spans, || assert_eq!(drain.line(), None))?;
    assert_eq!(registry.counts().open, spans);
    drop(last);
    let counts = registry.counts();
    assert_eq!((counts.open, counts.closed), (0, u64::from(spans)));
    Ok(())
}

#[test]
fn a_stack_of_48_kib_is_enough() -> Result<(), Error> {
    let (registry, mut drain) = compact().slots(20_000).workers(2).ring(65_536).build()?;
    let there = registry.clone();
    let small = thread::Builder::new().stack_size(48 * 1024).spawn(move || {
        let a = span!(there, Level::Info, "a", k = 1);
        let guards: Vec<_> = (0..many(1000)).map(|_| a.enter()).collect();
        event!(there, Level::Info, { k = "[1, 2, 3]" }, "{}", "m");
        drop(guards);
        chain(&there, many(2_000), || ()).map(drop)
    });
    small.expect("a thread").join().expect("no panic")?;
    assert_eq!(registry.lost().calls(), 0);
    assert_empty(&registry);
    assert!(texts(&mut drain).len() > 60);
    Ok(())
}
