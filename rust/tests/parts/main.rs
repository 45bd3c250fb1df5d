//! A registry of several parts: what lies where, what is told in which order, and what each question answers of all.
#[path = "../common/mod.rs"]
mod common;
mod full;
mod model;
mod order;
#[path = "../../examples/border/plain/mod.rs"]
#[allow(dead_code)]
mod plain;

use common::{assert_empty, info, texts};
use span_registry::{
    event, span, Error, Id, Layer, Level, Limit, Meta, Parent, Registry, RegistryBuilder, Span, Targets,
};
use std::thread;

/// How many workers each part has, of which one is no thread's.
const WORKERS: u32 = 9;

fn of_parts(parts: u32) -> RegistryBuilder {
    Registry::builder().parts(parts).workers(WORKERS - 1)
}

fn compact(parts: u32) -> RegistryBuilder {
    of_parts(parts).layer(Layer::compact())
}

/// In which part the calling thread's roots lie.
fn home(registry: &Registry) -> u32 {
    registry.worker().expect("nothing is owed") / WORKERS
}

/// Runs this in a new thread whose roots lie in that part.
fn at_home<T: Send>(registry: &Registry, part: u32, run: impl Fn() -> T + Sync) -> T {
    loop {
        let here = || (home(registry) == part).then(&run);
        let ran = thread::scope(|scope| scope.spawn(here).join());
        if let Some(answer) = ran.expect("no panic") {
            return answer;
        }
    }
}

/// A root in each part.
fn roots(registry: &Registry, parts: u32) -> Vec<Span> {
    let root = |part| at_home(registry, part, || root(registry, &format!("root{part}")));
    (0..parts).map(root).collect()
}

fn root(registry: &Registry, name: &str) -> Span {
    registry.span(&info(name), Parent::Root, &[]).expect("it fits")
}

fn id(span: &Span) -> Id {
    span.id().expect("a layer wants it")
}

#[test]
fn one_part_is_the_registry_without_parts_byte_by_byte() -> Result<(), Error> {
    let lines = |builder: RegistryBuilder| -> Result<(Vec<String>, Vec<u64>), Error> {
        let (registry, mut drain) = builder.layer(Layer::compact()).layer(Layer::json()).build()?;
        let mut ids = Vec::new();
        for number in 0..3 {
            let a = span!(registry, Level::Info, "a", number = number);
            let _inside = (a.enter(), a.enter());
            let b = registry.span(&info("GET /b"), Parent::Current, &[("k k", "v")])?;
            event!(registry, Level::Warn, { x = "\"" }, "m");
            b.record(&[("more", "1")]);
            ids.extend([id(&a), id(&b)].map(Id::into_u64));
        }
        let told = drain.lines().map(|line| format!("L{} {}", line.layer, line.text));
        Ok((told.collect(), ids))
    };
    let plain = lines(Registry::builder().workers(2))?;
    assert_eq!(
        plain.1,
        [1, 2, (1 << 24) + 1, (1 << 24) + 2, (2 << 24) + 1, (2 << 24) + 2]
    );
    assert_eq!(plain.0[0], "L0 new 1 w0 a number=0");
    assert_eq!(lines(Registry::builder().workers(2).parts(1))?, plain);
    Ok(())
}

#[test]
fn only_1_to_128_parts_are_made() -> Result<(), Error> {
    for parts in [0, 129, u32::MAX] {
        let refused = of_parts(parts).build().map(drop).expect_err("out of range");
        assert_eq!(
            refused.to_string(),
            format!("bad limits: `parts({parts})` has to be 1 to 128")
        );
        assert_eq!(refused.number(), 8);
    }
    assert_eq!((Limit::Parts.name(), Limit::Parts.most()), ("parts", 128));
    let (registry, mut drain) = compact(128).slots(2).ring(4).build()?;
    let last = at_home(&registry, 127, || root(&registry, "last"));
    assert_eq!(id(&last).into_u64(), 127 << 57 | 1);
    let worker = 127 * WORKERS;
    let wanted = format!("new {} w{worker} last", id(&last));
    assert_eq!(texts(&mut drain), [wanted]);
    Ok(())
}

#[test]
fn an_id_names_the_part_of_its_span() -> Result<(), Error> {
    const PARTS: u32 = 3;
    let (registry, mut drain) = of_parts(PARTS).layer(Layer::json()).build()?;
    let roots = roots(&registry, PARTS);
    for (part, root) in (0..).zip(&roots) {
        assert_eq!(
            (id(root).part(), id(root).into_u64()),
            (part, u64::from(part) << 57 | 1)
        );
        let found = registry.find(id(root)).expect("it is open");
        assert_eq!((found.parent, found.handles, found.entries), (None, 1, 0));
        // A child lies where its parent is, whatever thread makes it.
        for other in 0..PARTS {
            let child = at_home(&registry, other, || span!(registry, parent: root, Level::Info, "child"));
            assert_eq!(id(&child).part(), part);
            assert_eq!(registry.find(id(&child)).and_then(|found| found.parent), root.id());
        }
        assert_eq!(registry.id(id(root).into_u64()), root.id());
    }
    // Numbers of parts that aren't there, and those that no core gives.
    for number in [
        0,
        3 << 57 | 1,
        127 << 57 | 1,
        1 << 57,
        (1 << 57) + (1 << 56) + 1,
        u64::MAX,
    ] {
        assert_eq!(registry.id(number), None, "{number}");
    }
    let never = registry.id((1 << 57) + (1 << 56)).expect("it might be an id");
    assert_eq!(
        (registry.find(never), registry.clone_span(never)),
        (None, Err(Error::Unknown))
    );
    let first = drain.line().expect("a line").text;
    assert_eq!(first, r#"{"fields":[],"id":1,"kind":"new","path":"root0","worker":0}"#);
    for line in drain.lines() {
        let number = |key: &str| -> u64 {
            let rest = line.text.rsplit_once(key).expect("a key").1;
            let digits = rest.split([',', '}']).next().expect("a number");
            digits.parse().expect("digits")
        };
        let (part, worker) = (number("\"id\":") >> 57, number("\"worker\":"));
        assert_eq!(part, worker / u64::from(WORKERS), "{}", line.text);
    }
    drop(roots);
    assert_empty(&registry);
    Ok(())
}

#[test]
fn an_id_of_another_registry_is_refused_before_all_else() -> Result<(), Error> {
    let ((one, _drain), (other, _other_drain)) = (compact(3).build()?, compact(3).build()?);
    let (there, site) = (root(&other, "a"), other.callsite(&info("a"))?);
    let strange = id(&there);
    assert_eq!(one.find(strange), None);
    assert_eq!(one.enter(strange), Err(Error::OtherRegistry));
    assert_eq!(one.exit_or_owe(strange), Err(Error::OtherRegistry));
    assert_eq!(one.try_close(strange), Err(Error::OtherRegistry));
    assert_eq!(one.close_or_owe(strange), Err(Error::OtherRegistry));
    assert_eq!(one.why_open(strange).map(drop), Err(Error::OtherRegistry));
    assert_eq!(
        one.span(&info("b"), Parent::Of(strange), &[]).map(drop),
        Err(Error::OtherRegistry)
    );
    assert_eq!(
        one.span_at(&site, Parent::Root, &[]).map(drop),
        Err(Error::OtherRegistry)
    );
    Ok(())
}

/// `enter a, enter b, exit a`: the current span is b, and none once b is left, whatever parts they are in.
#[test]
fn the_current_span_is_the_innermost_that_is_still_entered() -> Result<(), Error> {
    let (registry, mut drain) = compact(3).ring(64).build()?;
    let roots = roots(&registry, 3);
    for (first, second) in [(0, 1), (1, 0), (2, 1), (1, 1)] {
        let (a, b) = (&roots[first], span!(registry, parent: &roots[second], Level::Info, "b"));
        let current = || registry.current_span();
        let entered = [a.enter(), b.enter()];
        assert_eq!(current(), Ok(b.id()));
        let [in_a, in_b] = entered;
        drop(in_a);
        assert_eq!(current(), Ok(b.id()));
        let child = span!(registry, Level::Info, "child");
        assert_eq!(registry.find(id(&child)).and_then(|found| found.parent), b.id());
        drop(in_b);
        assert_eq!(current(), Ok(None));
        // Entries that repeat a span count for nothing: a, b, a.
        let entered = [a.enter(), b.enter(), a.enter()];
        assert_eq!(current(), Ok(b.id()));
        let [in_a, in_b, again] = entered;
        drop(in_b);
        assert_eq!(current(), Ok(a.id()));
        drop(in_a);
        assert_eq!(current(), Ok(a.id()));
        drop(again);
        assert_eq!(current(), Ok(None));
        drain.lines().for_each(drop);
    }
    Ok(())
}

#[test]
fn an_event_is_told_in_the_spans_of_one_part() -> Result<(), Error> {
    let only = |prefix: &str| Targets::new().with_target(prefix, Level::Trace);
    let builder = of_parts(2)
        .layer(Layer::compact())
        .layer(Layer::compact().with_targets(only("app")));
    let (registry, mut drain) = builder.build()?;
    let of = |part, target: &'static str| {
        let meta = Meta::new(Level::Info, target, target);
        at_home(&registry, part, || {
            registry.span(&meta, Parent::Root, &[]).expect("it fits")
        })
    };
    let (a, b) = (of(0, "app"), of(1, "lib"));
    let _inside = (a.enter(), b.enter());
    drain.lines().for_each(drop);
    registry.event(&Meta::event(Level::Info, "app"), "m", &[])?;
    let told: Vec<String> = drain
        .lines()
        .map(|line| format!("L{} {}", line.layer, line.text))
        .collect();
    // With one part the second layer is told it in a.
    let worker = WORKERS;
    let wanted = [
        format!("L0 event {} w{worker} lib INFO m", id(&b)),
        format!("L1 event 0 w{worker} - INFO m"),
    ];
    assert_eq!(told, wanted);
    Ok(())
}

#[test]
fn an_event_goes_to_the_part_of_its_parent() -> Result<(), Error> {
    const PARTS: u32 = 4;
    let (registry, mut drain) = compact(PARTS).build()?;
    let roots = roots(&registry, PARTS);
    drain.lines().for_each(drop);
    let _inside = roots[1].enter();
    drain.lines().for_each(drop);
    for (part, root) in (0..PARTS).zip(&roots) {
        assert_eq!(id(root).part(), part);
        event!(registry, parent: root, Level::Info, "m");
        let wanted = format!("event {} w{} root{part} INFO m", id(root), part * WORKERS);
        assert_eq!(texts(&mut drain), [wanted]);
    }
    let meta = Meta::event(Level::Info, "app");
    for part in 0..PARTS {
        let told = at_home(&registry, part, || registry.event_in(&meta, Parent::Root, "r", &[]));
        assert_eq!(told, Ok(()));
        let line = drain.lines().next().expect("it is told").text;
        assert!(line.ends_with(" - INFO r"), "{line}");
    }
    Ok(())
}

#[test]
fn a_callsite_has_one_number_in_all_parts() -> Result<(), Error> {
    const PARTS: u32 = 4;
    let (registry, mut drain) = compact(PARTS).build()?;
    let sites = [registry.callsite(&info("one"))?, registry.callsite(&info("GET /two"))?];
    for part in 0..PARTS {
        at_home(&registry, part, || {
            for site in &sites {
                registry.span_at(site, Parent::Root, &[]).map(drop).expect("it fits");
                registry.event_at(site, "m", &[]).expect("it fits");
            }
            drop(span!(registry, Level::Info, "here"));
            event!(registry, Level::Info, "there");
        });
        let told = texts(&mut drain);
        let names: Vec<&str> = told
            .iter()
            .map(|text| text.splitn(4, ' ').nth(3).unwrap_or(""))
            .collect();
        let wanted = [
            "one",
            "one",
            "- INFO m",
            "--GET-20-2Ftwo",
            "--GET-20-2Ftwo",
            "- INFO m",
            "here",
            "here",
            "- INFO there",
        ];
        assert_eq!(names, wanted);
    }
    Ok(())
}

#[test]
fn open_spans_of_all_parts_are_listed_with_what_holds_them() -> Result<(), Error> {
    const PARTS: u32 = 3;
    let (registry, mut drain) = compact(PARTS).build()?;
    let roots = roots(&registry, PARTS);
    let leaked = span!(registry, parent: &roots[2], Level::Info, "leaked", k = 7);
    let kept = leaked.id();
    std::mem::forget(leaked);
    let _inside = roots[1].enter();
    let open = registry.open_spans()?;
    let listed: Vec<(Id, &str, u32)> = open.iter().map(|span| (span.id, &*span.name, span.entries)).collect();
    let [first, second, third] = [0, 1, 2].map(|part| id(&roots[part]));
    let last = kept.expect("wanted");
    let wanted = [
        (first, "root0", 0),
        (second, "root1", 1),
        (third, "root2", 0),
        (last, "leaked", 0),
    ];
    assert_eq!(listed, wanted);
    assert_eq!(open.iter().nth(1).map(|span| span.inside.clone()), Some(vec![WORKERS]));
    assert_eq!(drain.open_spans()?, open);
    let why = registry.why_open(third)?;
    let why: Vec<(Id, Option<Id>, bool)> = why.iter().map(|span| (span.id, span.parent, span.is_held())).collect();
    assert_eq!(why, [(third, None, true), (last, Some(third), true)]);
    assert!(registry
        .open_spans()?
        .to_string()
        .contains(&format!("\n  leaked ({last}) k=7, ")));
    // At the end each is told by its whole id.
    drop(registry);
    drain.lines().for_each(drop);
    let mut out = Vec::new();
    drain
        .run_until(&mut out, &true.into())
        .expect("a list of bytes takes all");
    let told = String::from_utf8(out).expect("UTF-8");
    for span in [first, second, third, last] {
        assert!(told.contains(&format!(" open span={span} name=")), "{told}");
    }
    Ok(())
}

#[test]
fn a_thread_that_ends_leaves_its_spans_in_each_part() -> Result<(), Error> {
    const PARTS: u32 = 4;
    let (registry, mut drain) = compact(PARTS).ring(64).build()?;
    let roots = roots(&registry, PARTS);
    thread::scope(|scope| {
        let entering = scope.spawn(|| roots.iter().for_each(|root| std::mem::forget(root.enter())));
        entering.join().expect("no panic");
    });
    let counts = registry.counts();
    assert_eq!((counts.held, counts.open, counts.owed), (4, 4, 0), "{counts:?}");
    // This thread has made no call that takes a number.
    assert_eq!((counts.threads, counts.workers), (0, WORKERS - 1));
    drop(roots);
    assert_empty(&registry);
    assert_eq!(texts(&mut drain).len(), 4 * 4);
    Ok(())
}

#[test]
fn what_was_lost_is_told_once() -> Result<(), Error> {
    let (registry, mut drain) = compact(3).build()?;
    let gone = id(&root(&registry, "a"));
    drain.lines().for_each(drop);
    for part in 0..3 {
        at_home(&registry, part, || {
            assert_eq!(registry.find(gone), None);
            drop(span!(registry, parent: gone, Level::Info, "b"));
        });
    }
    assert_eq!((registry.lost().by(&Error::Unknown), registry.lost().calls()), (3, 3));
    assert!(registry.worker().is_ok());
    // The next call of whatever thread and part tells it.
    let told = texts(&mut drain);
    assert_eq!(told.len(), 3, "{told:?}");
    assert!(
        told.iter().all(|text| text.ends_with(" - WARN lost unknown=1")),
        "{told:?}"
    );
    Ok(())
}

#[test]
fn notes_name_spans_by_their_whole_ids() -> Result<(), Error> {
    let (registry, mut drain) = of_parts(2).layer(Layer::tree()).build()?;
    let roots = roots(&registry, 2);
    let child = span!(registry, parent: &roots[1], Level::Info, "child", k = 1);
    child.in_scope(|| event!(registry, Level::Info, "m"));
    let notes: Vec<_> = std::iter::from_fn(|| drain.note()).collect();
    let seen: Vec<(Option<Id>, Option<Id>)> = notes.iter().map(|note| (note.id, note.parent)).collect();
    let (first, second, child) = (roots[0].id(), roots[1].id(), child.id());
    let (new, inside) = ((child, second), (child, second));
    assert_eq!(
        seen,
        [(first, None), (second, None), new, inside, (None, child), inside]
    );
    assert_eq!(
        notes.iter().map(|note| note.worker / WORKERS).collect::<Vec<_>>(),
        [0, 1, 1, 1, 1, 1]
    );
    assert!(notes[2].to_string().contains(&format!("\"parent\":{}", id(&roots[1]))));
    Ok(())
}
