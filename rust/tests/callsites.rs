//! Callsites: spans and events at them are what the same calls by meta are, and what is refused.
mod common;

use common::{assert_empty, compact, id, info, texts, LONG};
use span_registry::{Callsite, Drain, Error, Fields, Layer, Level, Meta, Parent, Registry, Span};
use std::thread;

const METAS: [Meta<'static>; 4] = [
    Meta {
        level: Level::Info,
        target: "app::db",
        name: "query",
    },
    Meta {
        level: Level::Error,
        target: "app",
        name: "ping",
    },
    // No layer wants it.
    Meta {
        level: Level::Trace,
        target: "app",
        name: "trace",
    },
    // Any text is a target.
    Meta {
        level: Level::Warn,
        target: "",
        name: "a.b-c_D9",
    },
];
const FIELDS: [Fields<'static>; 3] = [&[], &[("k", "v")], &[("key", ""), ("key", "\u{e9}\n=\"")]];

/// How spans are made and events are told: by meta, or at callsites.
trait Calls {
    fn span(&self, registry: &Registry, place: usize, parent: Parent, fields: Fields<'_>) -> Result<Span, Error>;
    fn event(&self, registry: &Registry, place: usize, message: &str, fields: Fields<'_>) -> Result<(), Error>;
}

struct ByMeta;

impl Calls for ByMeta {
    fn span(&self, registry: &Registry, place: usize, parent: Parent, fields: Fields<'_>) -> Result<Span, Error> {
        registry.span(&METAS[place], parent, fields)
    }

    fn event(&self, registry: &Registry, place: usize, message: &str, fields: Fields<'_>) -> Result<(), Error> {
        registry.event(&METAS[place], message, fields)
    }
}

struct AtCallsites(Vec<Callsite>);

impl AtCallsites {
    fn of(registry: &Registry) -> Result<AtCallsites, Error> {
        let callsites: Result<_, _> = METAS.iter().map(|meta| registry.callsite(meta)).collect();
        callsites.map(AtCallsites)
    }
}

impl Calls for AtCallsites {
    fn span(&self, registry: &Registry, place: usize, parent: Parent, fields: Fields<'_>) -> Result<Span, Error> {
        registry.span_at(&self.0[place], parent, fields)
    }

    fn event(&self, registry: &Registry, place: usize, message: &str, fields: Fields<'_>) -> Result<(), Error> {
        registry.event_at(&self.0[place], message, fields)
    }
}

fn two_layers() -> Result<(Registry, Drain), Error> {
    let compact = Layer::compact().with_max_level(Level::Debug);
    let json = Layer::json().with_targets("app::db=trace".parse().expect("targets"));
    Registry::builder().workers(1).layer(compact).layer(json).build()
}

/// Nested spans and events of all places with all fields, the answers, and the lines.
fn run(calls: &impl Calls, registry: &Registry, drain: &mut Drain) -> (Vec<String>, Vec<String>) {
    let mut answers = Vec::new();
    let parents = [
        Parent::Root,
        Parent::Current,
        Parent::Of(id(registry, 1)),
        Parent::Of(id(registry, 77)),
    ];
    let bad: Fields<'_> = &[("bad key", "")];
    for (parent, place) in parents
        .into_iter()
        .flat_map(|parent| (0..METAS.len()).map(move |place| (parent, place)))
    {
        for fields in FIELDS.into_iter().chain([bad]) {
            let made = calls.span(registry, place, parent, fields);
            answers.push(format!("{made:?}"));
            let inside = made.as_ref().ok().map(Span::try_enter);
            answers.push(format!("{:?}", calls.event(registry, place, "message", fields)));
            drop(inside);
        }
    }
    (
        answers,
        drain
            .lines()
            .map(|line| format!("L{} {}", line.layer, line.text))
            .collect(),
    )
}

#[test]
fn calls_at_callsites_are_the_calls_by_meta() -> Result<(), Error> {
    let (by_meta, mut drain_by_meta) = two_layers()?;
    let (registry, mut drain) = two_layers()?;
    let wanted = run(&ByMeta, &by_meta, &mut drain_by_meta);
    let at = AtCallsites::of(&registry)?;
    let told = run(&at, &registry, &mut drain);
    assert_eq!(told, wanted);
    assert!(told.1.len() > 100, "{}", told.1.len());
    assert_eq!(registry.counts(), by_meta.counts());
    assert_empty(&registry);
    Ok(())
}

#[test]
fn a_callsite_makes_spans_by_id_too() -> Result<(), Error> {
    let (registry, mut drain) = compact().build()?;
    let place = registry.callsite(&info("a"))?;
    let first = registry.new_span_at(&place, Parent::Root, &[])?.expect("wanted");
    let second = registry
        .new_span_at(&place, first.into(), &[("k", "v")])?
        .expect("wanted");
    registry.try_close(first)?;
    registry.try_close(second)?;
    let wanted = ["new 1 w0 a", "new 2 w0 a:a k=v", "close 2 w0 a:a k=v", "close 1 w0 a"];
    assert_eq!(texts(&mut drain), wanted);
    Ok(())
}

#[test]
fn a_span_that_no_layer_wants_is_disabled() -> Result<(), Error> {
    let (registry, _drain) = two_layers()?;
    let at = AtCallsites::of(&registry)?;
    assert!(registry.span_at(&at.0[2], Parent::Root, &[])?.is_disabled());
    assert_eq!(registry.new_span_at(&at.0[2], Parent::Root, &[]), Ok(None));
    assert_eq!(registry.counts().calls, 0);
    Ok(())
}

#[test]
fn another_registry_refuses_it() -> Result<(), Error> {
    let (gone, _) = compact().build()?;
    let of_gone = gone.callsite(&info("a"))?;
    drop(gone);
    let (registry, mut drain) = compact().build()?;
    let (other, _other_drain) = compact().build()?;
    let place = registry.callsite(&info("a"))?;
    let of_other = other.callsite(&info("b"))?;
    for stranger in [of_gone, of_other] {
        assert_eq!(
            registry.span_at(&stranger, Parent::Root, &[]).map(drop),
            Err(Error::OtherRegistry)
        );
        assert_eq!(
            registry.new_span_at(&stranger, Parent::Of(id(&registry, 9)), &[(" ", "")]),
            Err(Error::OtherRegistry)
        );
        assert_eq!(registry.event_at(&stranger, "m", &[]), Err(Error::OtherRegistry));
        assert_ne!(stranger, place);
    }
    assert_eq!((registry.counts().calls, registry.counts().threads), (0, 0));
    registry.clone().event_at(&place, "m", &[])?;
    assert_eq!(texts(&mut drain), ["event 0 w0 - INFO m"]);
    Ok(())
}

#[test]
fn what_no_span_could_have_is_refused_at_once() -> Result<(), Error> {
    let (registry, mut drain) = compact().build()?;
    let longest = "n".repeat(64);
    for name in [LONG, &" ".repeat(21), &"\u{e9}".repeat(11)] {
        assert_eq!(registry.callsite(&info(name)), Err(Error::bad_name(name)), "{name:?}");
        let by_meta = registry.span(&info(name), Parent::Root, &[]).map(drop);
        assert_eq!(by_meta, Err(Error::bad_name(name)), "{name:?}");
    }
    let place = registry.callsite(&info(&longest))?;
    registry.span_at(&place, Parent::Root, &[])?;
    assert_eq!(texts(&mut drain)[0], format!("new 1 w0 {longest}"));
    Ok(())
}

#[test]
fn calls_at_it_are_refused_as_by_meta() -> Result<(), Error> {
    let (registry, mut drain) = compact().slots(1).ring(1).build()?;
    let place = registry.callsite(&info("a"))?;
    let make = |parent, fields| registry.new_span_at(&place, parent, fields);
    assert_eq!(
        make(Parent::Of(id(&registry, 1)), &[(LONG, "")]),
        Err(Error::bad_name(LONG))
    );
    assert_eq!(make(Parent::Of(id(&registry, 1)), &[]), Err(Error::Unknown));
    assert_eq!(
        registry.event_at(&place, "m", &[(LONG, "")]),
        Err(Error::bad_name(LONG))
    );
    let a = make(Parent::Root, &[])?.expect("wanted");
    assert_eq!(make(Parent::Root, &[]), Err(Error::Full));
    assert_eq!(registry.event_at(&place, "m", &[]), Err(Error::Backlog));
    // No place in the ring is needed.
    let other = registry.callsite(&info("b"))?;
    assert_ne!(other, place);
    assert_eq!(texts(&mut drain), ["new 1 w0 a"]);
    registry.try_close(a)?;
    assert_eq!(texts(&mut drain), ["close 1 w0 a"]);
    let b = registry.span_at(&other, Parent::Root, &[])?;
    assert_eq!(texts(&mut drain), ["new 16777217 w0 b"]);
    assert_eq!(registry.counts().owed, 0);
    drop(b);
    Ok(())
}

#[test]
fn a_callsite_takes_no_workers_number() -> Result<(), Error> {
    let (registry, _drain) = compact().build()?;
    assert_eq!(registry.worker(), Ok(0));
    let made = thread::scope(|scope| scope.spawn(|| registry.callsite(&info("a"))).join().expect("no panic"))?;
    assert_eq!(registry.counts().threads, 1);
    registry.event_at(&made, "m", &[])
}

#[test]
fn many_threads_share_one_callsite() -> Result<(), Error> {
    const THREADS: u32 = 8;
    const ROUNDS: usize = 500;
    let (registry, mut drain) = compact().workers(THREADS).ring(65_536).build()?;
    let place = registry.callsite(&info("shared"))?;
    thread::scope(|scope| {
        for at in 0..THREADS {
            let registry = &registry;
            scope.spawn(move || {
                let thread = at.to_string();
                for _ in 0..ROUNDS {
                    let span = registry
                        .span_at(&place, Parent::Current, &[("thread", &thread)])
                        .expect("wanted");
                    let _inside = span.try_enter().expect("not refused");
                    registry.event_at(&place, &thread, &[]).expect("not refused");
                }
            });
        }
    });
    let lines = texts(&mut drain);
    let ending = |end: &str| lines.iter().filter(|line| line.ends_with(end)).count();
    for at in 0..THREADS {
        // A new one and a close, and an event.
        assert_eq!(ending(&format!(" shared thread={at}")), 2 * ROUNDS);
        assert_eq!(ending(&format!(" shared INFO {at}")), ROUNDS);
    }
    assert_eq!(lines.len(), 5 * ROUNDS * THREADS as usize);
    assert_empty(&registry);
    Ok(())
}
