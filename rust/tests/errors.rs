//! What refusals say.
use span_registry::{span, try_span, BadLimit, Differing, Error, Level, Limit, Meta, Parent, Registry};

const LIMIT: BadLimit = BadLimit {
    limit: Limit::Ring,
    value: 70_000,
};

const LIBRARY: Error = Error::OtherLibrary {
    what: Differing::Counts,
    library: 48,
    package: 40,
};

#[test]
fn each_refusal_has_its_text_and_number() {
    let table = [
        (Error::Unknown, 1, "unknown: no open span has this id"),
        (Error::CountFull, 2, "count full: the span has max_count"),
        (Error::Full, 3, "full: no slot is free, as each has an open span or "),
        (Error::NotEntered, 4, "not entered: the thread isn't inside"),
        (Error::TooManyLayers, 5, "too many layers: at most 64; "),
        (Error::bad_name("a b"), 6, "bad name: \"a b\" has over 64 bytes"),
        (Error::Backlog, 7, "backlog: the ring is full; read the drain"),
        (
            Error::BadLimits(LIMIT),
            8,
            "bad limits: `ring(70000)` has to be 1 to 65536",
        ),
        (Error::OutOfMemory, 10, "out of memory"),
        (Error::BadData, 11, "bad data: a text has 4 GiB"),
        (
            Error::TooManyThreads,
            100,
            "too many threads: as many are inside spans as ",
        ),
        (Error::OtherRegistry, 101, "other registry: the callsite, id or span"),
        (
            LIBRARY,
            102,
            "other library: its size of SpanCounts is 48, and this package was written for 40; ",
        ),
    ];
    for (error, number, text) in table {
        assert_eq!(error.number(), number);
        assert!(error.to_string().starts_with(text), "{error}");
        let passes = [Error::Backlog, Error::OutOfMemory].contains(&error);
        assert_eq!(error.may_pass(), passes, "{text}");
    }
}

#[test]
fn a_refusal_says_what_to_do() {
    let table = [
        (Error::Unknown, "; keep a handle as long as the id is used"),
        (
            Error::CountFull,
            "; give some back, or ask for more with `RegistryBuilder::max_count`",
        ),
        (
            Error::Full,
            "; close spans, or ask for more with `RegistryBuilder::slots`",
        ),
        (
            Error::NotEntered,
            "; leave it in the thread that entered it, once for each entry",
        ),
        (Error::TooManyLayers, "; put what several tell into one"),
        (Error::bad_name("a b"), "; put the rest into a field's value"),
        (
            Error::Backlog,
            "; read the drain, or choose with `RegistryBuilder::on_full`",
        ),
        (Error::BadLimits(LIMIT), " has to be 1 to 65536"),
        (
            Error::OutOfMemory,
            "; make it again later, or ask for less with `RegistryBuilder::slots`",
        ),
        (Error::BadData, "; tell the beginning of it, or several parts"),
        (
            Error::TooManyThreads,
            "; ask for more with `RegistryBuilder::workers`, or enter no span there",
        ),
        (
            Error::OtherRegistry,
            "; use it with the one that made it, or with a clone of that",
        ),
        (LIBRARY, "; build both of the same sources by `rust/build`"),
    ];
    for (error, remedy) in table {
        assert!(error.to_string().ends_with(remedy), "{error}");
    }
}

#[test]
fn full_and_too_many_threads_tell_each_reason() -> Result<(), Error> {
    // The only slot is used up, and no span is open.
    let (registry, _drain) = Registry::builder().slots(1).last_generation(0).build()?;
    drop(span!(registry, Level::Info, "a"));
    let refused = try_span!(registry, Level::Info, "a").map(drop);
    assert_eq!((registry.counts().open, &refused), (0, &Err(Error::Full)));
    let text = Error::Full.to_string();
    assert!(
        text.contains("was given for the last time (`RegistryBuilder::last_generation`)"),
        "{text}"
    );
    let text = Error::TooManyThreads.to_string();
    assert!(text.contains(" or the thread's locals are being dropped"), "{text}");
    Ok(())
}

#[test]
fn a_bad_name_is_told_whole_where_it_could_be_a_name() -> Result<(), Error> {
    let (registry, _drain) = Registry::builder().build()?;
    let refused_of = |name: &str| match registry.callsite(&Meta::new(Level::Info, "app", name)) {
        Err(Error::BadName(refused)) => refused,
        other => panic!("{other:?}"),
    };
    // The longest that is refused for what it has beside names' bytes.
    let whole = format!("GET /users{}", "/".repeat(54));
    assert_eq!(refused_of(&whole).text(), whole);
    assert_eq!(format!("{:?}", refused_of(&whole)), format!("{whole:?}"));
    let long = format!("{}\u{e9}", "n".repeat(63));
    assert_eq!(refused_of(&long).text(), "n".repeat(63));
    assert_eq!(format!("{:?}", refused_of(&long)), format!("{:?}..", "n".repeat(63)));
    let key = "k/".repeat(30);
    let refused = registry.span(
        &Meta::new(Level::Info, "app", "a"),
        Parent::Root,
        &[("k", ""), (&key, "")],
    );
    let text = refused.map(drop).expect_err("it is no key").to_string();
    assert!(
        text.starts_with(&format!("bad name: {key:?} has over 64 bytes")),
        "{text}"
    );
    Ok(())
}

#[test]
fn a_refusal_is_an_error_like_others() {
    fn fails() -> Result<(), Box<dyn std::error::Error + Send + Sync>> {
        Err(Error::Full)?
    }
    assert!(fails().expect_err("it fails").to_string().starts_with("full: "));
    assert!(Error::Other(14).to_string().starts_with("status 14"));
}
