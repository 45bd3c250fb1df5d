//! Lines in the form of trees, and notes.
mod common;

use common::{info, texts};
use span_registry::{
    event, retry, span, Drain, Error, FmtSpan, Form, Kind, Layer, Level, Meta, Note, NoteKind, OnFull, Parent,
    Registry, Targets,
};
use std::collections::HashMap;
use std::thread;
use std::time::{Duration, Instant};

/// The lines at hand, with 0 for each time.
fn timeless(drain: &mut Drain) -> Vec<String> {
    let without = |line: String| {
        let (_, rest) = line.split_once(',').expect("a time comes first");
        format!("{{\"at\":0,{rest}")
    };
    texts(drain).into_iter().map(without).collect()
}

#[test]
fn a_line_tells_the_parent_the_target_the_level_and_kinds() -> Result<(), Error> {
    let (registry, mut drain) = Registry::builder().workers(1).layer(Layer::tree()).build()?;
    let a = span!(registry, target: "app", Level::Warn, "a", n = 1 + 1, ok = true, x = 1.0, text = "1");
    let b = registry.span(&info("b"), Parent::from(&a), &[("n", "1")])?;
    let inside = b.try_enter()?;
    event!(registry, target: "app::db", Level::Debug, { rows = 3_u64, who = "\"me\"\n" }, "read\t\"{}\"", 7);
    drop(inside);
    a.record(&[("r", "2")]);
    drop(b);
    drop(a);
    event!(registry, target: "app", Level::Info, "m");
    let of_a = |id| format!(r#""id":{id},"kind":"#);
    let (a, b, event) = (of_a(1), of_a(2), of_a(0));
    let a_is = r#","level":"WARN","name":"a","parent":0,"path":"a","target":"app","worker":0}"#;
    let b_is = r#","level":"INFO","name":"b","parent":1,"path":"a:b","target":"app","worker":0}"#;
    let inside = r#""name":"event","parent":2,"path":"a:b","target":"app::db","worker":0}"#;
    let outside = r#""name":"event","parent":0,"path":"-","target":"app","worker":0}"#;
    let n = r#"["n",2],["ok",true],["x",1.0],["text","1"]"#;
    let rows = r#"["rows",3],["who","\"me\"\n"]"#;
    let wanted = [
        format!(r#"{{"at":0,"fields":[{n}],{a}"new"{a_is}"#),
        format!(r#"{{"at":0,"fields":[["n","1"]],{b}"new"{b_is}"#),
        format!(r#"{{"at":0,"fields":[],{b}"enter"{b_is}"#),
        format!(r#"{{"at":0,"fields":[{rows}],{event}"event","level":"DEBUG","message":"read\t\"7\"",{inside}"#),
        format!(r#"{{"at":0,"fields":[],{b}"exit"{b_is}"#),
        format!(r#"{{"at":0,"fields":[["r","2"]],{a}"record"{a_is}"#),
        format!(r#"{{"at":0,"fields":[["n","1"]],{b}"close"{b_is}"#),
        format!(r#"{{"at":0,"fields":[{n},["r","2"]],{a}"close"{a_is}"#),
        format!(r#"{{"at":0,"fields":[],{event}"event","level":"INFO","message":"m",{outside}"#),
    ];
    assert_eq!(timeless(&mut drain), wanted);
    Ok(())
}

#[test]
fn a_note_tells_the_same_as_a_struct() -> Result<(), Error> {
    let (registry, mut drain) = Registry::builder().layer(Layer::tree()).build()?;
    let before = Instant::now();
    let a = span!(registry, target: "app", Level::Warn, "a", n = 7);
    thread::sleep(Duration::from_millis(20));
    event!(registry, target: "app", Level::Info, "m");
    let note = drain.note().expect("a line");
    assert_eq!((note.kind, note.level, note.worker), (NoteKind::New, Level::Warn, 0));
    assert_eq!((note.id, note.parent, &*note.name), (a.id(), None, "a"));
    assert_eq!((&*note.target, &*note.path, &note.message), ("app", "a", &None));
    let field = &note.fields[0];
    assert_eq!((&*field.key, field.kind, &*field.value), ("n", Kind::Integer, "7"));
    let event = drain.note().expect("a line");
    assert_eq!(
        (event.kind, event.id, event.message.as_deref()),
        (NoteKind::Event, None, Some("m"))
    );
    let between = event.at - note.at;
    assert!(
        between >= Duration::from_millis(20) && between <= before.elapsed(),
        "{between:?}"
    );
    assert_eq!(drain.note(), None);
    Ok(())
}

/// Spans and events by turns, with more fields and fewer, short texts and long ones.
fn tell_all_kinds(registry: &Registry) -> Result<(), Error> {
    let a = span!(registry, target: "app::long::target", Level::Warn, "a", n = 7, ok = true, text = "a long text");
    event!(registry, target: "app", Level::Info, { rows = 3_u64 }, "a long message");
    let inside = a.try_enter()?;
    let b = span!(registry, target: "b", Level::Info, "b");
    event!(registry, target: "app", Level::Info, "m");
    a.record(&[("r", "2"), ("s", "")]);
    drop(inside);
    drop((b, a));
    Ok(())
}

#[test]
fn a_note_that_is_read_into_another_keeps_nothing_of_it() -> Result<(), Error> {
    let (registry, mut drain) = Registry::builder().layer(Layer::tree()).build()?;
    let mut earlier = Note::default();
    assert!(!drain.note_into(&mut earlier));
    assert_eq!(earlier, Note::default());
    tell_all_kinds(&registry)?;
    let wanted: Vec<Note> = std::iter::from_fn(|| drain.note()).collect();
    tell_all_kinds(&registry)?;
    for wanted in wanted {
        assert!(drain.note_into(&mut earlier));
        // Both rounds say the same, of other spans.
        let mut again = earlier.clone();
        assert_eq!(again.id.is_some(), wanted.id.is_some());
        assert_eq!(again.parent.is_some(), wanted.parent.is_some());
        (again.at, again.id, again.parent) = (wanted.at, wanted.id, wanted.parent);
        assert_eq!(again, wanted);
    }
    let last = earlier.clone();
    assert!(!drain.note_into(&mut earlier));
    assert_eq!(earlier, last);
    Ok(())
}

#[test]
fn of_several_layers_each_is_told_in_its_form() -> Result<(), Error> {
    let quiet = Layer::new(Form::Tree).with_targets(Targets::new().with_target("app", Level::Info));
    let builder = Registry::builder()
        .layer(Layer::compact())
        .layer(quiet)
        .layer(Layer::json());
    let (registry, mut drain) = builder.workers(1).build()?;
    let a = registry.span(&info("a"), Parent::Root, &[])?;
    // The second layer isn't told of this one.
    let b = span!(registry, target: "lib", parent: &a, Level::Info, "b");
    let c = registry.span(&info("c"), Parent::from(&b), &[])?;
    let notes: Vec<Note> = std::iter::from_fn(|| drain.note()).collect();
    assert_eq!(
        notes.iter().map(|note| (note.layer, note.id)).collect::<Vec<_>>(),
        [(1, a.id()), (1, c.id())]
    );
    assert_eq!((&*notes[1].path, notes[1].parent), ("a:c", a.id()));
    c.record(&[("k", "v")]);
    let lines: Vec<(usize, String)> = drain.lines().map(|line| (line.layer, line.text)).collect();
    assert_eq!(lines[0], (0, "record 3 w0 a:b:c k=v".to_owned()));
    assert!(
        lines[1].1.contains(r#""parent":1,"path":"a:c""#) && lines[1].0 == 1,
        "{lines:?}"
    );
    assert_eq!(
        lines[2].1,
        r#"{"fields":[["k","v"]],"id":3,"kind":"record","path":"a:b:c","worker":0}"#
    );
    Ok(())
}

#[test]
fn slots_that_are_used_again_and_lines_that_are_thrown_away_mix_nothing_up() -> Result<(), Error> {
    let builder = Registry::builder()
        .workers(1)
        .slots(2)
        .ring(3)
        .on_full(OnFull::DropOldest);
    let (registry, mut drain) = builder.layer(Layer::tree()).build()?;
    for round in 0..50 {
        let outer = registry.span(&info("outer"), Parent::Root, &[])?;
        let inner = span!(registry, target: "in", parent: &outer, Level::Debug, "inner", round = round);
        if round % 7 == 0 {
            drain.lines().for_each(drop);
        }
        inner.record(&[("k", "v")]);
        let (outer, inner) = (outer.id(), { inner }.id());
        // What is left: the record, and the closes of both.
        let notes: Vec<Note> = std::iter::from_fn(|| drain.note()).collect();
        let close = notes.iter().rev().find(|note| note.id == inner).expect("it closed");
        assert_eq!(
            (close.kind, close.parent, &*close.name),
            (NoteKind::Close, outer, "inner")
        );
        let fields: Vec<_> = close
            .fields
            .iter()
            .map(|field| (field.kind, field.value.clone()))
            .collect();
        assert_eq!(
            fields,
            [(Kind::Integer, round.to_string()), (Kind::Text, "v".to_owned())]
        );
    }
    Ok(())
}

#[test]
fn a_note_that_is_read_while_lines_are_thrown_away_has_its_own_target_or_is_lost() -> Result<(), Error> {
    const EVENTS: u64 = 60_000;
    for ring in [1, 64] {
        let builder = Registry::builder().ring(ring).on_full(OnFull::DropOldest);
        let (registry, mut drain) = builder.layer(Layer::tree()).build()?;
        let tell = |number: u64| {
            let text = number.to_string();
            registry.event(&Meta::event(Level::Info, &text), &text, &[])
        };
        let notes = thread::scope(|scope| {
            let calling = scope.spawn(|| (0..EVENTS).try_for_each(tell).expect("there is place"));
            let mut notes = 0;
            loop {
                let is_done = calling.is_finished();
                while let Some(note) = drain.note() {
                    notes += 1;
                    let is_ours = note.target != "span_registry";
                    assert_eq!(
                        note.message.as_deref(),
                        Some(if is_ours { &*note.target } else { "lost" })
                    );
                }
                if is_done {
                    break notes;
                }
            }
        });
        // Each call has a line.
        assert_eq!(notes + registry.lost().lines(), registry.counts().calls);
    }
    Ok(())
}

/// Looks at so many notes; how many spans are open then.
fn follow(drain: &mut Drain, count: usize) -> usize {
    let (mut last, mut open, mut notes) = (Duration::ZERO, HashMap::new(), 0);
    while notes < count {
        let Some(note) = drain.note() else {
            thread::yield_now();
            continue;
        };
        notes += 1;
        assert!(note.at >= last);
        last = note.at;
        match note.kind {
            NoteKind::New => assert_eq!(open.insert(note.id, (note.name, note.parent)), None),
            NoteKind::Close => assert_eq!(open.remove(&note.id), Some((note.name, note.parent))),
            _ => {
                let (name, above) = &open[&note.parent];
                assert_eq!((&**name, note.message.as_deref()), ("inner", Some("m")));
                assert_eq!(&*open[above].0, "outer");
            }
        }
    }
    open.len()
}

#[test]
fn the_tree_of_many_threads_can_be_built_again() -> Result<(), Error> {
    const THREADS: u32 = 4;
    const ROUNDS: usize = 300;
    let layer = Layer::tree().with_span_events(FmtSpan::NEW | FmtSpan::CLOSE);
    let (registry, mut drain) = Registry::builder().workers(THREADS).ring(64).layer(layer).build()?;
    let reading = thread::spawn(move || follow(&mut drain, THREADS as usize * ROUNDS * 5));
    thread::scope(|scope| {
        for _ in 0..THREADS {
            scope.spawn(|| {
                for _ in 0..ROUNDS {
                    let outer = retry(|| registry.span(&info("outer"), Parent::Root, &[])).expect("new");
                    let inner = retry(|| registry.span(&info("inner"), Parent::from(&outer), &[])).expect("new");
                    told_inside(&registry, &inner);
                }
            });
        }
    });
    assert_eq!(reading.join().expect("no panic"), 0);
    Ok(())
}

/// An event inside of a span.
fn told_inside(registry: &Registry, inner: &span_registry::Span) {
    let _inside = retry(|| inner.try_enter()).expect("enter");
    retry(|| registry.event(&Meta::event(Level::Info, "app"), "m", &[])).expect("event");
}

#[test]
fn what_the_registry_tells_of_itself_is_a_note_too() -> Result<(), Error> {
    let (registry, mut drain) = Registry::builder().workers(1).layer(Layer::tree()).build()?;
    assert!(span!(registry, Level::Info, common::LONG).is_disabled());
    let note = drain.note().expect("a line");
    assert_eq!(
        (&*note.target, note.level, note.message.as_deref()),
        ("span_registry", Level::Warn, Some("lost"))
    );
    assert_eq!((&*note.fields[0].key, &*note.fields[0].value), ("bad_name", "1"));
    Ok(())
}

#[test]
fn nothing_is_kept_once_the_drain_is_dropped() -> Result<(), Error> {
    let (registry, drain) = Registry::builder().ring(2).layer(Layer::tree()).build()?;
    drop(drain);
    for _ in 0..1000 {
        let a = span!(registry, Level::Info, "a", n = 1);
        let _inside = a.enter();
    }
    common::assert_empty(&registry);
    Ok(())
}
