//! Where no layer wants a span or an event, nothing is paid for it.
mod common;

use common::{compact, texts};
use span_registry::{event, span, try_event, try_span, Error, Layer, Level, Registry, Targets};
use std::fmt;
use std::sync::atomic::{AtomicU32, Ordering};

/// Counts how often its text is made.
struct Counted<'a>(&'a AtomicU32);

impl fmt::Display for Counted<'_> {
    fn fmt(&self, f: &mut fmt::Formatter<'_>) -> fmt::Result {
        self.0.fetch_add(1, Ordering::Relaxed);
        f.write_str("text")
    }
}

fn errors_only() -> span_registry::RegistryBuilder {
    Registry::builder().layer(Layer::compact().with_max_level(Level::Error))
}

#[test]
fn what_no_layer_wants_formats_nothing_and_takes_no_place() -> Result<(), Error> {
    let made = AtomicU32::new(0);
    let (registry, mut drain) = errors_only().ring(1).build()?;
    for _ in 0..100 {
        event!(registry, Level::Trace, { k = Counted(&made) }, "{}", Counted(&made));
        try_event!(registry, Level::Warn, { k = Counted(&made) }, "m")?;
        assert!(span!(registry, Level::Info, "a", k = Counted(&made)).is_disabled());
        assert!(try_span!(registry, Level::Debug, "a", k = Counted(&made))?.is_disabled());
    }
    assert_eq!((made.load(Ordering::Relaxed), registry.counts().calls), (0, 0));
    event!(registry, Level::Error, { k = Counted(&made) }, "{}", Counted(&made));
    assert_eq!(made.load(Ordering::Relaxed), 2);
    assert_eq!(texts(&mut drain), ["event 0 w0 - ERROR text k=text"]);
    assert!(registry.lost().is_nothing());
    Ok(())
}

#[test]
fn with_no_layer_spans_are_made_and_no_event_is_told() -> Result<(), Error> {
    let (registry, _drain) = Registry::builder().build()?;
    assert!(!registry.enabled(Level::Error, "app"));
    assert_eq!(registry.max_level(), None);
    let a = span!(registry, Level::Trace, "a");
    event!(registry, Level::Error, "m");
    assert!(!a.is_disabled());
    assert_eq!(registry.counts().calls, 1);
    Ok(())
}

/// One place in the program, and several registries.
fn place(registry: &Registry) -> bool {
    !span!(registry, target: "app::db", Level::Info, "a").is_disabled()
}

#[test]
fn a_place_serves_several_registries() -> Result<(), Error> {
    let (loud, mut of_loud) = compact().build()?;
    let (quiet, mut of_quiet) = errors_only().build()?;
    for _ in 0..3 {
        assert!(place(&loud));
        assert!(!place(&quiet));
    }
    let (third, mut of_third) = compact().build()?;
    assert!(place(&third) && place(&loud));
    assert_eq!(
        [&mut of_loud, &mut of_quiet, &mut of_third].map(|drain| texts(drain).len()),
        [8, 0, 2]
    );
    Ok(())
}

#[test]
fn a_place_asked_by_many_threads_at_once_is_told_right() -> Result<(), Error> {
    let (loud, _of_loud) = compact().ring(65_536).build()?;
    let (quiet, _of_quiet) = errors_only().build()?;
    std::thread::scope(|scope| {
        for _ in 0..8 {
            scope.spawn(|| (0..500).for_each(|_| assert!(place(&loud) && !place(&quiet))));
        }
    });
    assert_eq!((loud.counts().made, quiet.counts().made), (4000, 0));
    Ok(())
}

/// All rules of up to two pairs over these prefixes.
fn all_targets() -> Vec<Targets> {
    let pairs = || {
        ["", "app", "app::db"]
            .into_iter()
            .flat_map(|prefix| Level::ALL.map(|level| (prefix, level)))
    };
    let two = pairs().flat_map(|one| pairs().map(move |other| Targets::from_iter([one, other])));
    std::iter::once(Targets::new()).chain(two).collect()
}

#[test]
fn enabled_is_what_the_registry_itself_does() -> Result<(), Error> {
    for targets in all_targets() {
        let layer = Layer::compact().with_targets(targets.clone());
        let (registry, mut drain) = Registry::builder().workers(1).slots(1).ring(4).layer(layer).build()?;
        let mut most = None;
        for (level, target) in Level::ALL
            .into_iter()
            .flat_map(|level| ["app", "app::db::x", "web", ""].map(|target| (level, target)))
        {
            let meta = span_registry::Meta::new(level, target, "a");
            let made = registry.span(&meta, span_registry::Parent::Root, &[])?;
            assert_eq!(
                registry.enabled(level, target),
                !made.is_disabled(),
                "{targets} {level} {target:?}"
            );
            let callsite = registry.callsite(&meta)?;
            assert_eq!(
                [registry.enabled_at(&callsite)?, callsite.is_enabled()],
                [!made.is_disabled(); 2],
                "{targets} {level} {target:?}"
            );
            most = if made.is_disabled() { most } else { Some(level) };
            drop(made);
            drain.lines().for_each(drop);
        }
        assert_eq!(registry.max_level(), most, "{targets}");
    }
    Ok(())
}

#[test]
fn a_callsite_is_asked_of_its_own_registry_and_without_a_layer_nothing_is_admitted() -> Result<(), Error> {
    let (registry, _drain) = Registry::builder().build()?;
    let (other, _of_other) = compact().build()?;
    let meta = span_registry::Meta::new(Level::Error, "app", "a");
    let (silent, loud) = (registry.callsite(&meta)?, other.callsite(&meta)?);
    assert_eq!(
        (registry.enabled_at(&silent), other.enabled_at(&loud)),
        (Ok(false), Ok(true))
    );
    assert_eq!((silent.is_enabled(), loud.is_enabled()), (false, true));
    assert_eq!(registry.enabled_at(&loud), Err(Error::OtherRegistry));
    Ok(())
}
