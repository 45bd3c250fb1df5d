//! Which spans are open, where they were made, and what keeps them open.
mod common;

use common::{compact, info, span as by_meta};
use span_registry::{span, Error, Layer, Level, Meta, OpenSpan, Parent, Registry};
use std::sync::atomic::AtomicBool;
use std::sync::Barrier;
use std::thread;

#[test]
fn the_open_spans_are_listed_as_trees() -> Result<(), Error> {
    let (registry, _drain) = compact().build()?;
    assert!(registry.open_spans()?.is_empty());
    assert_eq!(registry.open_spans()?.to_string(), "");
    let a = span!(registry, target: "t", Level::Warn, "a", path = "/users", n = 1 + 1);
    let line = line!() - 1;
    let b = span!(registry, parent: &a, Level::Info, "b");
    let c = span!(registry, parent: &b, Level::Info, "c");
    let other = by_meta(&registry, "other");
    let own = a.try_clone()?;
    other.record(&[("k", "a\nb")]);
    let _twice = (c.enter(), c.enter());
    drop(b);
    let open = registry.open_spans()?;
    let text = open.to_string();
    let place = |line: u32| format!("{}:{line}", file!());
    let wanted = [
        format!("a (1) path=/users n=2, {}: 2 handles, 1 open child", place(line)),
        format!("  b (2), {}: 1 open child", place(line + 2)),
        format!("    c (3), {}: 1 handle, 1 thread inside (w0)", place(line + 3)),
        "other (4) k=a\\nb: 1 handle".to_owned(),
    ];
    assert_eq!(text.lines().collect::<Vec<_>>(), wanted);
    let first = open.iter().next().expect("four");
    assert_eq!((&*first.name, &*first.target, first.level), ("a", "t", Level::Warn));
    assert_eq!(open.iter().filter(|span| span.is_held()).count(), 3);
    drop((other, own));
    Ok(())
}

#[test]
fn a_span_at_a_callsite_has_its_name_and_its_fields() -> Result<(), Error> {
    let (registry, _drain) = compact().build()?;
    let place = registry.callsite(&info("a"))?;
    let one = registry.span_at(&place, Parent::Root, &[("k", "v")])?;
    let other = registry.span_at(&place, Parent::Root, &[])?;
    one.record(&[("l", "")]);
    assert_eq!(
        registry.open_spans()?.to_string(),
        "a (1) k=v l=: 1 handle\na (2): 1 handle\n"
    );
    drop(other);
    let open = registry.open_spans()?;
    let told = open.iter().next().expect("one");
    assert_eq!((&*told.target, told.place, told.fields.len()), ("app", None, 2));
    Ok(())
}

#[test]
fn fields_are_told_up_to_4_kib() -> Result<(), Error> {
    let (registry, _drain) = compact().build()?;
    let long = "x".repeat(5000);
    let a = registry.span(&info("a"), Parent::Root, &[("k", "v"), ("long", &long), ("l", "")])?;
    assert_eq!(registry.open_spans()?.to_string(), "a (1) k=v ..: 1 handle\n");
    drop(a);
    Ok(())
}

#[test]
fn names_and_targets_of_any_length_are_told() -> Result<(), Error> {
    let (registry, _drain) = compact().build()?;
    let (name, target) = ("n".repeat(64), "ä::".repeat(300));
    let of_its_meta = registry.span(&Meta::new(Level::Trace, &target, &name), Parent::Root, &[])?;
    let bare = registry.span(&Meta::new(Level::Info, "", "a"), Parent::Root, &[])?;
    let open = registry.open_spans()?;
    let told: Vec<_> = open.iter().map(|span| (&*span.name, &*span.target)).collect();
    assert_eq!(told, [(&*name, &*target), ("a", "")]);
    drop((of_its_meta, bare));
    Ok(())
}

#[test]
fn one_span_is_told_as_among_all() -> Result<(), Error> {
    let (registry, _drain) = compact().workers(2).parts(2).build()?;
    let a = span!(registry, target: "t", Level::Warn, "a", n = 1);
    let b = registry.span(&info("b"), Parent::from(&a), &[("k", "v")])?;
    b.record(&[("l", "w")]);
    let other = thread::scope(|scope| scope.spawn(|| by_meta(&registry, "other")).join()).expect("no panic");
    let _inside = (a.enter(), b.enter());
    let open = registry.open_spans()?;
    assert_eq!(open.len(), 3);
    for span in &open {
        assert_eq!(registry.open_span(span.id).as_ref(), Ok(span));
    }
    let told = registry.open_span(b.id().expect("wanted"))?;
    assert_eq!(
        (&*told.name, &*told.target, told.level, told.parent),
        ("b", "app", Level::Info, a.id())
    );
    let fields = [("k", "v"), ("l", "w")].map(|(key, value)| (key.to_owned(), value.to_owned()));
    assert_eq!(
        (told.fields.as_slice(), told.handles, told.entries),
        (&fields[..], 1, 1)
    );
    let gone = other.id().expect("wanted");
    drop(other);
    assert_eq!(registry.open_span(gone), Err(Error::Unknown));
    assert_eq!(registry.open_span(registry.id(77).expect("not 0")), Err(Error::Unknown));
    Ok(())
}

#[test]
fn many_threads_inside_a_span_are_told_by_their_numbers() -> Result<(), Error> {
    const THREADS: u32 = 40;
    let (registry, _drain) = Registry::builder().workers(THREADS).build()?;
    let span = span!(registry, Level::Info, "a");
    let gate = Barrier::new(THREADS as usize + 1);
    let open = thread::scope(|scope| {
        for _ in 0..THREADS {
            scope.spawn(|| {
                let _twice = (span.enter(), span.enter());
                gate.wait();
                gate.wait();
            });
        }
        gate.wait();
        let open = registry.open_spans();
        gate.wait();
        open
    })?;
    let told = open.iter().next().expect("one");
    assert_eq!((told.entries, &told.inside), (THREADS, &Vec::from_iter(0..THREADS)));
    assert_eq!(registry.open_spans()?.iter().next().expect("one").inside, []);
    Ok(())
}

/// By their ids.
fn numbers(registry: &Registry, of: u64) -> Vec<u64> {
    let Ok(open) = registry.why_open(registry.id(of).expect("not 0")) else {
        return Vec::new();
    };
    open.iter().map(|span: &OpenSpan| span.id.into_u64()).collect()
}

#[test]
fn a_span_is_open_because_of_what_is_held_below_it() -> Result<(), Error> {
    let (registry, _drain) = compact().build()?;
    let a = registry.span(&info("a"), Parent::Root, &[])?;
    let b = registry.span(&info("b"), Parent::from(&a), &[])?;
    let c = registry.span(&info("c"), Parent::from(&b), &[])?;
    let d = registry.span(&info("d"), Parent::from(&a), &[])?;
    let e = registry.span(&info("e"), Parent::Root, &[])?;
    assert_eq!(numbers(&registry, 1), [1, 2, 3, 4]);
    assert_eq!(numbers(&registry, 2), [2, 3]);
    assert_eq!(numbers(&registry, 5), [5]);
    drop((a, b));
    // Its last holders are given back in turn.
    drop(d);
    assert_eq!(numbers(&registry, 1), [1, 2, 3]);
    assert_eq!(numbers(&registry, 4), []);
    let why = registry.why_open(registry.id(1).expect("not 0"))?;
    assert_eq!(why.iter().filter(|span| span.is_held()).count(), 1);
    drop(c);
    assert_eq!(registry.why_open(registry.id(1).expect("not 0")), Err(Error::Unknown));
    assert_eq!(registry.open_spans()?.len(), 1);
    drop(e);
    // A slot's last span is none of the open ones.
    let again = by_meta(&registry, "again");
    let open = registry.open_spans()?;
    assert_eq!(open.iter().map(|span| Some(span.id)).collect::<Vec<_>>(), [again.id()]);
    Ok(())
}

#[test]
fn spans_of_many_threads_are_those_of_one_moment() -> Result<(), Error> {
    let (registry, guard) = compact().workers(8).spawn_writer(std::io::sink())?;
    thread::scope(|scope| {
        for _ in 0..4 {
            scope.spawn(|| {
                for _ in 0..300 {
                    let a = span!(registry, Level::Info, "a");
                    let _inside = a.enter();
                    drop(span!(registry, Level::Info, "b"));
                }
            });
        }
        for _ in 0..100 {
            let open = registry.open_spans().expect("there is memory");
            for span in &open {
                let is_there = |parent| open.iter().any(|other| Some(other.id) == parent);
                assert!(span.parent.is_none() || is_there(span.parent), "{span}");
                assert!(span.handles + span.entries + span.children > 0, "{span}");
            }
        }
    });
    assert!(registry.open_spans()?.is_empty());
    drop(guard);
    Ok(())
}

#[test]
fn a_long_chain_is_listed_without_recursion() -> Result<(), Error> {
    const SPANS: u32 = 20_000;
    let (registry, guard) = Registry::builder().slots(SPANS).spawn_writer(std::io::sink())?;
    let first = span!(registry, Level::Info, "a");
    let mut last = first.clone();
    for _ in 1..SPANS {
        last = span!(registry, parent: &last, Level::Info, "a");
    }
    let id = first.id().expect("made");
    drop(first);
    let why = registry.why_open(id)?;
    assert_eq!(
        (why.len(), why.iter().filter(|span| span.is_held()).count()),
        (SPANS as usize, 1)
    );
    assert_eq!(why.iter().filter(|span| span.children == 0).count(), 1);
    drop(last);
    assert_eq!(registry.why_open(id), Err(Error::Unknown));
    drop(guard);
    Ok(())
}

#[test]
fn a_drain_and_a_guard_tell_what_is_open_at_the_end() -> Result<(), Box<dyn std::error::Error>> {
    let (registry, mut drain) = compact().build()?;
    let a = by_meta(&registry, "a");
    std::mem::forget(a.clone());
    drop((a, registry));
    assert_eq!(drain.open_spans()?.to_string(), "a (1): 1 handle\n");
    let (stop, mut out) = (AtomicBool::new(true), Vec::new());
    assert_eq!(drain.run_until(&mut out, &stop)?, 2);
    let told = "event 0 w1 - WARN open span=1 name=a handles=1 entries=0 children=0";
    assert_eq!(String::from_utf8(out)?, format!("new 1 w0 a\n{told}\n"));
    let (registry, guard) = compact().spawn_writer(std::io::sink())?;
    assert!(guard.open_spans()?.is_empty());
    let b = span!(registry, Level::Info, "b");
    assert_eq!(guard.open_spans()?.len(), 1);
    assert_eq!(guard.finish()?, 2);
    drop(b);
    Ok(())
}

#[test]
fn layers_that_admit_the_registrys_own_target_are_told_what_is_open() -> Result<(), Box<dyn std::error::Error>> {
    let targets = [
        "app=info",
        "app=info,span_registry=warn",
        "app=info,span_registry=error",
    ];
    let mut builder = Registry::builder().workers(1);
    for text in targets {
        builder = builder.layer(Layer::compact().with_targets(text.parse()?));
    }
    let (registry, mut drain) = builder.build()?;
    let a = by_meta(&registry, "a");
    let (stop, mut outs) = (AtomicBool::new(true), [Vec::new(), Vec::new(), Vec::new()]);
    drain.run_layers_until(&mut outs, &stop)?;
    let [silent, told, other] = outs.map(|out| String::from_utf8(out).expect("UTF-8"));
    assert_eq!((&*silent, &silent), ("new 1 w0 a\n", &other));
    let open = "event 0 w1 - WARN open span=1 name=a handles=1 entries=0 children=0\n";
    assert_eq!(told, format!("{silent}{open}"));
    assert_eq!(drain.open_spans()?.len(), 1);
    drop(a);
    Ok(())
}

#[test]
fn of_many_spans_that_are_open_at_the_end_a_hundred_are_told() -> Result<(), Box<dyn std::error::Error>> {
    let (registry, mut drain) = compact().ring(8).build()?;
    let spans: Vec<_> = (0..300)
        .map(|_| {
            drain.lines().for_each(drop);
            by_meta(&registry, "a")
        })
        .collect();
    let (stop, mut out) = (AtomicBool::new(true), Vec::new());
    drain.run_until(&mut out, &stop)?;
    let out = String::from_utf8(out)?;
    assert_eq!(out.matches(" open span=").count(), 100);
    drop(spans);
    Ok(())
}
