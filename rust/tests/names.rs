//! Names and keys of any bytes: how lines write them, and that all else shows them as they are.
mod common;

use common::{compact, info, texts};
use span_registry::{event, span, Error, Layer, Level, Meta, Parent, Registry};

#[test]
fn lines_write_the_bytes_that_no_name_has() -> Result<(), Error> {
    let (registry, mut drain) = compact().build()?;
    let request = span!(registry, Level::Info, "GET /users", "user name" = 7, "r#type" = 1);
    let same = registry.callsite(&info("GET /users"))?;
    drop((
        registry.span(&info("--a"), Parent::Root, &[("", "")])?,
        registry.span_at(&same, Parent::Root, &[])?,
    ));
    request.record(&[("k", "v"), ("--", "w")]);
    event!(registry, Level::Info, { "a:b" = 2 }, "told");
    registry.event(&Meta::new(Level::Info, "app", "an event"), "m", &[("\u{e9}", "")])?;
    registry.event_at(&same, "n", &[("-", "")])?;
    let wanted = [
        "new 1 w0 --GET-20-2Fusers --user-20name=7 --r-23type=1",
        "new 2 w0 ---2D-2Da --=",
        "new 3 w0 --GET-20-2Fusers",
        "close 2 w0 ---2D-2Da --=",
        "close 3 w0 --GET-20-2Fusers",
        "record 1 w0 --GET-20-2Fusers k=v ---2D-2D=w",
        "event 0 w0 - INFO told --a-3Ab=2",
        "event 0 w0 - INFO m ---C3-A9=",
        "event 0 w0 - INFO n -=",
    ];
    assert_eq!(texts(&mut drain), wanted);
    Ok(())
}

#[test]
fn open_spans_and_notes_show_them_as_they_are() -> Result<(), Error> {
    let (registry, mut drain) = Registry::builder().workers(1).layer(Layer::tree()).build()?;
    let spans = [
        span!(registry, Level::Info, "GET /users", "user name" = 7),
        registry.span(&info("--GET"), Parent::Root, &[("a\nb", "")])?,
        registry.span_at(&registry.callsite(&info("---2D"))?, Parent::Root, &[("--", "1")])?,
    ];
    let names = [("GET /users", "user name"), ("--GET", "a\nb"), ("---2D", "--")];
    let open = registry.open_spans()?;
    for (span, (name, key)) in open.iter().zip(names) {
        assert_eq!((&*span.name, &*span.fields[0].0), (name, key));
        let note = drain.note().expect("it is told");
        assert_eq!((&*note.name, &*note.fields[0].key), (name, key));
    }
    assert_eq!(open.len(), spans.len());
    let text = open.to_string();
    assert!(text.starts_with("GET /users (1) user name=7, "), "{text}");
    assert!(text.contains("\n--GET (2) a\\nb=: 1 handle\n"), "{text}");
    event!(registry, Level::Info, "the key" = 1, "m");
    let note = drain.note().expect("it is told");
    assert_eq!((&*note.name, &*note.fields[0].key), ("event", "the key"));
    Ok(())
}

#[test]
fn whatever_is_refused_of_them_changes_nothing() -> Result<(), Error> {
    let (registry, mut drain) = compact().slots(1).ring(1).build()?;
    let stranger = registry.id(9).expect("not 0");
    let make = |parent| registry.span(&info("a b"), parent, &[("c d", "")]).map(drop);
    assert_eq!(make(Parent::Of(stranger)), Err(Error::Unknown));
    let first = registry.span(&info("a b"), Parent::Root, &[])?;
    assert_eq!(make(Parent::Root), Err(Error::Full));
    assert_eq!(first.try_record(&[("c d", "")]), Err(Error::Backlog));
    assert_eq!(registry.counts().calls, 1);
    assert_eq!(texts(&mut drain), ["new 1 w0 --a-20b"]);
    let site = registry.callsite(&info("a b"))?;
    assert_eq!(registry.event_at(&site, "m", &[("c d", "")]), Ok(()));
    assert_eq!(texts(&mut drain), ["event 0 w0 - INFO m --c-20d="]);
    Ok(())
}
