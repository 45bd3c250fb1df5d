//! The forms in which macros take fields, messages and parents.
mod common;

use common::{compact, texts};
use span_registry::{
    event, span, try_event, try_span, Drain, Error, FmtSpan, Id, Kind, Layer, Level, Parent, Registry,
};

const VARIABLES: &str = "user=7 name.first=Ada";

#[derive(Debug)]
struct Point {
    x: u8,
    label: &'static str,
}

const POINT: Point = Point { x: 3, label: "p" };

fn fields_of(drain: &mut Drain) -> Vec<String> {
    let lines = texts(drain);
    lines
        .into_iter()
        .map(|line| line.replacen("new 1 w0 ", "", 1))
        .collect()
}

#[test]
fn spans_take_fields_in_all_forms() -> Result<(), Error> {
    let (registry, mut drain) = compact().build()?;
    let (user, point, text) = (7, POINT, "a b");
    let span = span!(
        registry,
        Level::Info,
        "s",
        user,
        point.x,
        ?point.label,
        %text,
        ?user,
        plain = user + 1,
        debug = ?text,
        display = %text,
        http.status = 200,
        http.request.path = ?"/",
        type = %1,
        "quoted.key" = true,
        "quoted-debug" = ?Some(1),
        "quoted_display" = %2,
    );
    assert!(!span.is_disabled());
    assert_eq!(
        fields_of(&mut drain),
        [concat!(
            "s user=7 point.x=3 point.label=\"p\" text=a b user=7 plain=8 debug=\"a b\" display=a b http.status=200",
            " http.request.path=\"/\" type=1 quoted.key=true quoted-debug=Some(1) quoted_display=2"
        )]
    );
    Ok(())
}

/// With keywords for names.
struct Raw {
    r#in: u8,
}

#[test]
fn a_raw_identifier_gives_the_key_that_it_is() -> Result<(), Error> {
    let (registry, mut drain) = compact().build()?;
    let (r#type, raw, r) = ("get", Raw { r#in: 3 }, 1);
    let span = span!(
        registry,
        Level::Info,
        "s",
        r#type = 1,
        r#type,
        ?r#type,
        raw.r#in,
        %raw.r#in,
        http.r#type = ?r#type,
        r#fn.r#async.mod = %r,
        r,
        "r#type" = 2,
    );
    assert!(!span.is_disabled());
    let wanted = "s type=1 type=get type=\"get\" raw.in=3 raw.in=3 http.type=\"get\" fn.async.mod=1 r=1 --r-23type=2";
    assert_eq!(fields_of(&mut drain), [wanted]);
    event!(registry, Level::Info, { r#type }, "m");
    event!(registry, Level::Info, r#match = raw.r#in, "m");
    assert_eq!(
        texts(&mut drain),
        ["event 0 w0 - INFO m type=get", "event 0 w0 - INFO m match=3"]
    );
    Ok(())
}

#[test]
fn events_take_fields_before_their_message_and_in_braces() -> Result<(), Error> {
    let (registry, mut drain) = compact().build()?;
    let (user, count) = (7, 2);
    event!(registry, Level::Info, "{count} of {}", 3);
    event!(registry, Level::Info, user, "one");
    event!(registry, Level::Info, user = 3, ?count, "{count} of {}", 3);
    event!(registry, target: "t", Level::Warn, http.status = 200, "k" = %user, "{} of {all}", 1, all = 4);
    event!(registry, Level::Info, { user, a.b = ?"c", }, "{user}",);
    event!(registry, Level::Info, concat!("a", "{}"), user);
    event!(registry, Level::Info, { user }, concat!("b", "{}"), user);
    try_event!(registry, Level::Info, user, "tried")?;
    let told: Vec<String> = texts(&mut drain)
        .iter()
        .map(|line| line.replacen("event 0 w0 - ", "", 1))
        .collect();
    let wanted = [
        "INFO 2 of 3",
        "INFO one user=7",
        "INFO 2 of 3 user=3 count=2",
        "WARN 1 of 4 http.status=200 k=7",
        "INFO 7 user=7 a.b=\"c\"",
        "INFO a7",
        "INFO b7 user=7",
        "INFO tried user=7",
    ];
    assert_eq!(told, wanted);
    Ok(())
}

#[test]
fn an_event_may_have_fields_alone() -> Result<(), Error> {
    let (registry, mut drain) = Registry::builder().workers(1).layer(Layer::tree()).build()?;
    let user = 7;
    event!(registry, Level::Info, user, text = %user);
    event!(registry, Level::Info, { user });
    for fields in [&["user", "text"][..], &["user"]] {
        let note = drain.note().expect("it is told");
        assert_eq!(note.message.as_deref(), Some(""));
        assert_eq!(note.fields.iter().map(|field| &*field.key).collect::<Vec<_>>(), fields);
        assert_eq!(note.fields[0].kind, Kind::Integer);
        assert!(note.fields[1..].iter().all(|field| field.kind == Kind::Text));
    }
    Ok(())
}

#[test]
fn a_parent_is_a_span_an_id_or_none() -> Result<(), Error> {
    let (registry, mut drain) = compact().build()?;
    let root = span!(registry, Level::Info, "root");
    let id = root.id().expect("it is wanted");
    let _inside = root.enter();
    let children = [
        span!(registry, parent: &root, Level::Info, "a"),
        span!(registry, target: "t", parent: id, Level::Info, "b"),
        span!(registry, parent: Some(id), Level::Info, "c"),
        try_span!(registry, Level::Info, "d")?,
    ];
    let parent = |span: &span_registry::Span| registry.find(span.id()?)?.parent;
    assert!(children.iter().all(|child| parent(child) == Some(id)));
    let others = [
        span!(registry, parent: None, Level::Info, "e"),
        span!(registry, parent: None::<Id>, Level::Info, "f"),
    ];
    assert!(others.iter().all(|child| parent(child).is_none()));
    assert!(texts(&mut drain).len() > 6);
    Ok(())
}

#[test]
fn an_event_is_told_under_a_parent_of_its_own() -> Result<(), Error> {
    let targets = ["trace", "app=trace"].map(|targets| targets.parse().expect("targets"));
    let builder = targets
        .into_iter()
        .fold(Registry::builder().workers(1), |builder, targets| {
            builder.layer(Layer::compact().with_targets(targets).with_span_events(FmtSpan::NONE))
        });
    let (registry, mut drain) = builder.build()?;
    let a = span!(registry, target: "app", Level::Info, "a");
    let other = span!(registry, target: "other", parent: &a, Level::Info, "other");
    let b = span!(registry, target: "app", parent: &other, Level::Info, "b");
    let id = b.id().expect("it is wanted");
    let before = registry.counts();
    let inside = a.enter();
    event!(registry, target: "app", parent: &b, Level::Info, k = 1, "1");
    event!(registry, target: "app", parent: &other, Level::Info, "2");
    event!(registry, target: "app", parent: None, Level::Info, "3");
    event!(registry, target: "app", parent: Some(id), Level::Info, { k = 4 });
    try_event!(registry, target: "app", parent: Parent::Current, Level::Info, "5")?;
    event!(registry, parent: id, Level::Info, "6");
    drop(inside);
    let lines: Vec<_> = drain.lines().map(|line| (line.layer, line.text)).collect();
    let told = |layer| {
        let lines = lines.iter().filter(move |line| line.0 == layer);
        lines.map(|line| line.1.as_str()).collect::<Vec<_>>()
    };
    let wanted = [
        "event 3 w0 a:other:b INFO 1 k=1",
        "event 2 w0 a:other INFO 2",
        "event 0 w0 - INFO 3",
        "event 3 w0 a:other:b INFO  k=4",
        "event 1 w0 a INFO 5",
        "event 3 w0 a:other:b INFO 6",
    ];
    assert_eq!(told(0), wanted);
    // What it doesn't admit is no parent to it.
    let wanted = [
        "event 3 w0 a:b INFO 1 k=1",
        "event 0 w0 - INFO 2",
        "event 0 w0 - INFO 3",
        "event 3 w0 a:b INFO  k=4",
        "event 1 w0 a INFO 5",
    ];
    assert_eq!(told(1), wanted);
    // Nothing holds the parent for it.
    assert_eq!(registry.counts().held, before.held);
    drop(b);
    assert_eq!(
        try_event!(registry, target: "app", parent: id, Level::Info, "7"),
        Err(Error::Unknown)
    );
    event!(registry, target: "app", parent: id, Level::Info, "8");
    assert_eq!(registry.lost().by(&Error::Unknown), 1);
    Ok(())
}

#[test]
fn no_value_is_formatted_where_nothing_listens() -> Result<(), Error> {
    let (registry, mut drain) = Registry::builder()
        .layer(Layer::compact().with_max_level(Level::Error))
        .build()?;
    let fails = || -> u8 { unreachable!("nothing listens") };
    assert!(span!(registry, Level::Info, "a", user = fails(), debug = ?fails()).is_disabled());
    event!(registry, Level::Info, user = %fails(), "{}", fails());
    assert_eq!(drain.line(), None);
    Ok(())
}

#[test]
fn variables_keep_their_values() -> Result<(), Error> {
    struct Name {
        first: String,
    }
    let (registry, mut drain) = compact().build()?;
    let (user, name) = (String::from("7"), Name { first: "Ada".into() });
    drop(span!(registry, Level::Info, "s", user, name.first));
    assert_eq!((user.len(), name.first.len()), (1, 3));
    assert_eq!(fields_of(&mut drain)[0], format!("s {VARIABLES}"));
    Ok(())
}
