//! What `record!` and `try_record!` tell of the values' kinds: where they are recorded, and where the span closes.
mod common;

use common::{compact, info, texts};
use span_registry::{
    record, span, try_record, Drain, Error, FmtSpan, Kind, Layer, Level, Note, NoteKind, Parent, Registry, Span,
};
use std::cell::Cell;
use std::fmt;
use std::sync::{Arc, Mutex};

/// A field of a note.
type Told = (String, Kind, String);

fn fields_of(note: &Note) -> Vec<Told> {
    let told = |field: &span_registry::NoteField| (field.key.clone(), field.kind, field.value.clone());
    note.fields.iter().map(told).collect()
}

fn fields<const N: usize>(fields: [(&str, Kind, &str); N]) -> [Told; N] {
    fields.map(|(key, kind, value)| (key.to_owned(), kind, value.to_owned()))
}

/// The notes at hand of these kinds, with their fields.
fn told_of(drain: &mut Drain, kinds: &[NoteKind]) -> Vec<Vec<Told>> {
    let notes = std::iter::from_fn(|| drain.note());
    let of_kinds = notes.filter(|note| kinds.contains(&note.kind));
    of_kinds.map(|note| fields_of(&note)).collect()
}

const BOTH: [NoteKind; 2] = [NoteKind::Record, NoteKind::Close];

fn tree() -> Result<(Registry, Drain), Error> {
    Registry::builder().workers(1).layer(Layer::tree()).build()
}

struct Point {
    x: f64,
    label: &'static str,
}

#[test]
fn each_form_of_a_field_has_its_kind_in_the_record_and_the_close() -> Result<(), Error> {
    let (registry, mut drain) = tree()?;
    let span = span!(registry, Level::Info, "a", before = true);
    let (name, status) = ("Ada", 200_u16);
    let point = Point { x: -0.5, label: "p" };
    record!(
        span,
        status,
        user = name,
        %name,
        ?name,
        point.x,
        ?point.label,
        some.dotted = 1.5,
        ratio = f32::NAN,
        type = %1,
        "quoted key" = &true,
        sum = 1 + 1,
    );
    drop(span);
    let recorded = fields([
        ("status", Kind::Integer, "200"),
        ("user", Kind::Text, "Ada"),
        ("name", Kind::Text, "Ada"),
        ("name", Kind::Text, "\"Ada\""),
        ("point.x", Kind::Float, "-0.5"),
        ("point.label", Kind::Text, "\"p\""),
        ("some.dotted", Kind::Float, "1.5"),
        ("ratio", Kind::Float, "NaN"),
        ("type", Kind::Text, "1"),
        ("quoted key", Kind::Bool, "true"),
        ("sum", Kind::Integer, "2"),
    ]);
    let before = fields([("before", Kind::Bool, "true")]);
    let all = [&before[..], &recorded].concat();
    assert_eq!(told_of(&mut drain, &BOTH), [recorded.to_vec(), all]);
    Ok(())
}

#[test]
fn lines_have_values_of_their_kinds() -> Result<(), Error> {
    let (registry, mut drain) = tree()?;
    let span = span!(registry, Level::Info, "a", n = 1);
    record!(span, status = 200, ok = false, ratio = 2.0, "a \"key\"" = "1");
    drop(span);
    let lines = texts(&mut drain);
    let recorded = r#"["status",200],["ok",false],["ratio",2.0],["a \"key\"","1"]"#;
    assert_eq!(lines.len(), 3, "{lines:?}");
    assert!(
        lines[1].contains(&format!(r#""fields":[{recorded}],"id":1,"kind":"record""#)),
        "{}",
        lines[1]
    );
    assert!(
        lines[2].contains(&format!(r#""fields":[["n",1],{recorded}],"id":1,"kind":"close""#)),
        "{}",
        lines[2]
    );
    Ok(())
}

#[test]
fn several_records_keep_their_order_and_a_repeated_key_stands_twice() -> Result<(), Error> {
    let (registry, mut drain) = tree()?;
    // Of this one no field has a kind.
    let span = registry.span(&info("a"), Parent::Root, &[("k", "0"), ("l", "1")])?;
    record!(span, k = 1);
    span.record(&[("k", "2"), ("m", "3")]);
    span.follows_from(&span);
    let clone = span.clone();
    record!(&clone, k = true, k = 4.0);
    let other = span.try_clone()?;
    drop(span);
    drop(clone);
    let inside = other.entered();
    record!(inside, k = %5);
    try_record!(inside, k = 6)?;
    drop(inside);
    let records = [
        fields([("k", Kind::Integer, "1")]).to_vec(),
        fields([("k", Kind::Text, "2"), ("m", Kind::Text, "3")]).to_vec(),
        fields([("follows_from", Kind::Integer, "1")]).to_vec(),
        fields([("k", Kind::Bool, "true"), ("k", Kind::Float, "4")]).to_vec(),
        fields([("k", Kind::Text, "5")]).to_vec(),
        fields([("k", Kind::Integer, "6")]).to_vec(),
    ];
    let given = fields([("k", Kind::Text, "0"), ("l", Kind::Text, "1")]);
    let all = [&given[..], &records.concat()].concat();
    let wanted = [&records[..], &[all]].concat();
    assert_eq!(told_of(&mut drain, &BOTH), wanted);
    Ok(())
}

#[test]
fn the_span_may_be_any_expression_that_gives_one() -> Result<(), Error> {
    let (registry, mut drain) = tree()?;
    let span = span!(registry, Level::Info, "a");
    let (other, all) = (Mutex::new(span.clone()), [Arc::new(span.clone())]);
    record!(if all.is_empty() { &all[0] } else { &span }, n = 0);
    record!({ &span }, n = 1);
    record!(all[0], n = 2);
    // The lock is free again behind it.
    record!(other.lock().expect("no panic"), n = 3);
    try_record!(other.lock().expect("no panic"), n = 4)?;
    let wanted: Vec<_> = (0..5)
        .map(|n: u8| fields([("n", Kind::Integer, &n.to_string())]))
        .collect();
    assert_eq!(told_of(&mut drain, &[NoteKind::Record]), wanted);
    Ok(())
}

#[test]
fn more_fields_than_most_spans_have_keep_their_kinds() -> Result<(), Error> {
    let (registry, mut drain) = tree()?;
    let mut wanted = Vec::new();
    let span = span!(registry, Level::Info, "a");
    for round in 0..60 {
        span.record(&[("text", "t")]);
        record!(span, round, half = 0.5 * f64::from(round), is_odd = round % 2 == 1);
        wanted.extend(fields([
            ("text", Kind::Text, "t"),
            ("round", Kind::Integer, &round.to_string()),
            ("half", Kind::Float, &(0.5 * f64::from(round)).to_string()),
            ("is_odd", Kind::Bool, &(round % 2 == 1).to_string()),
        ]));
        // Some are read when they come, and some are kept until then.
        if round % 7 == 0 {
            assert!(drain.note().is_some());
        }
    }
    drop(span);
    // The next span of the slot has nothing of it.
    let next = registry.span(&info("b"), Parent::Root, &[("k", "1")])?;
    next.record(&[("k", "2")]);
    drop(next);
    let told = told_of(&mut drain, &[NoteKind::Close]);
    assert_eq!(told[0], wanted);
    assert_eq!(told[1], fields([("k", Kind::Text, "1"), ("k", Kind::Text, "2")]));
    Ok(())
}

#[test]
fn a_layer_that_is_told_of_closes_alone_has_the_kinds() -> Result<(), Error> {
    let layer = Layer::tree().with_span_events(FmtSpan::CLOSE);
    let (registry, mut drain) = Registry::builder()
        .layer(layer)
        .layer(Layer::compact())
        .layer(Layer::tree())
        .build()?;
    let outer = span!(registry, Level::Info, "outer");
    let inner = span!(registry, parent: &outer, Level::Info, "inner");
    record!(outer, depth = 0);
    record!(inner, depth = 1);
    drop(outer);
    // Both close here.
    drop(inner);
    let notes: Vec<Note> = std::iter::from_fn(|| drain.note()).collect();
    let closes = notes.iter().filter(|note| note.kind == NoteKind::Close);
    let told: Vec<_> = closes.map(|note| (note.layer, &*note.name, fields_of(note))).collect();
    let depth = |depth: &str| fields([("depth", Kind::Integer, depth)]).to_vec();
    let mut wanted = Vec::new();
    for (name, number) in [("inner", "1"), ("outer", "0")] {
        wanted.extend([0, 2].map(|layer| (layer, name, depth(number))));
    }
    assert_eq!(told, wanted);
    Ok(())
}

/// Counts how often it is formatted.
struct Counted<'a>(&'a Cell<u32>);

impl fmt::Display for Counted<'_> {
    fn fmt(&self, f: &mut fmt::Formatter<'_>) -> fmt::Result {
        self.0.set(self.0.get() + 1);
        f.write_str("counted")
    }
}

#[test]
fn of_a_disabled_span_no_value_is_formatted() -> Result<(), Error> {
    let (registry, mut drain) = Registry::builder()
        .layer(Layer::tree().with_max_level(Level::Warn))
        .build()?;
    let count = Cell::new(0);
    let fails = || -> u8 { unreachable!("nothing listens") };
    for span in [Span::none(), span!(registry, Level::Info, "a")] {
        record!(span, k = Counted(&count), n = fails());
        assert_eq!(try_record!(span, k = %fails(), n = ?fails()), Ok(()));
    }
    assert_eq!((count.get(), drain.note()), (0, None));
    let span = span!(registry, Level::Warn, "b");
    record!(span, k = Counted(&count));
    assert_eq!(count.get(), 1);
    Ok(())
}

#[test]
fn what_is_refused_is_answered_or_counted() -> Result<(), Error> {
    let (registry, mut drain) = tree()?;
    let span = span!(registry, Level::Info, "a");
    let refused = try_record!(
        span,
        "nnnnnnnnnnnnnnnnnnnnnnnnnnnnnnnnnnnnnnnnnnnnnnnnnnnnnnnnnnnnnnnnn" = 1
    );
    assert!(matches!(refused, Err(Error::BadName(_))), "{refused:?}");
    record!(span, k = 1);
    // Somebody gives the handle back by its id.
    let id = span.id().expect("it is wanted");
    assert!(registry.try_close(id)?);
    assert_eq!(try_record!(span, k = 2), Err(Error::Unknown));
    record!(span, k = 3);
    assert_eq!(registry.lost().by(&Error::Unknown), 1);
    // What was refused left no kinds behind.
    let wanted = vec![fields([("k", Kind::Integer, "1")]).to_vec(); 2];
    assert_eq!(told_of(&mut drain, &BOTH), wanted);
    Ok(())
}

#[test]
fn a_full_ring_refuses_a_record() -> Result<(), Error> {
    let (registry, mut drain) = Registry::builder().ring(2).layer(Layer::tree()).build()?;
    let span = span!(registry, Level::Info, "a");
    assert_eq!(try_record!(span, k = true), Ok(()));
    assert_eq!(try_record!(span, k = 1), Err(Error::Backlog));
    let wanted = fields([("k", Kind::Bool, "true")]);
    assert_eq!(told_of(&mut drain, &[NoteKind::Record]), std::slice::from_ref(&wanted));
    assert_eq!(try_record!(span, k = 2.5), Ok(()));
    drop(span);
    let last = fields([("k", Kind::Float, "2.5")]);
    let all = [&wanted[..], &last].concat();
    assert_eq!(told_of(&mut drain, &BOTH), [last.to_vec(), all]);
    Ok(())
}

#[test]
fn spans_of_each_part_keep_their_kinds() -> Result<(), Error> {
    let builder = Registry::builder().parts(3).layer(Layer::tree());
    let (registry, mut drain) = builder.build()?;
    let round = |number: u64| {
        let span = span!(registry, Level::Info, "a");
        record!(span, number);
        record!(span, is_last = true);
        (span.id().map(|id| id.part()), number.to_string())
    };
    // Their slots' spans follow one another, so the latter have nothing of the former.
    let rounds: Vec<_> = (0..9).map(round).collect();
    let notes = std::iter::from_fn(|| drain.note());
    let closes: Vec<Note> = notes.filter(|note| note.kind == NoteKind::Close).collect();
    assert_eq!(closes.len(), rounds.len());
    for (close, (part, number)) in closes.iter().zip(&rounds) {
        assert_eq!(close.id.map(|id| id.part()), *part);
        let wanted = [("number", Kind::Integer, &**number), ("is_last", Kind::Bool, "true")];
        assert_eq!(fields_of(close), fields(wanted));
    }
    Ok(())
}

#[test]
fn other_layers_write_the_same_as_of_texts() -> Result<(), Error> {
    let mut said = [const { Vec::new() }; 2];
    for (said, is_macro) in said.iter_mut().zip([false, true]) {
        let (registry, mut drain) = compact().layer(Layer::json()).build()?;
        let span = registry.span(&info("a"), Parent::Root, &[])?;
        if is_macro {
            record!(span, status = 200, ok = true, "a key" = ?"a\n");
        } else {
            span.record(&[("status", "200"), ("ok", "true"), ("a key", "\"a\\n\"")]);
        }
        drop(span);
        *said = texts(&mut drain);
    }
    assert_eq!(said[0], said[1]);
    assert!(said[0].iter().any(|line| line.contains("status=200 ok=true")));
    Ok(())
}
