//! The text by which a layer's targets are chosen.
use span_registry::{Level, ParseError, Targets};

fn pairs(text: &str) -> Result<Vec<(String, Level)>, String> {
    let targets: Targets = text
        .parse()
        .map_err(|error: span_registry::ParseError| error.to_string())?;
    Ok(targets
        .pairs()
        .map(|(prefix, level)| (prefix.to_owned(), level))
        .collect())
}

#[test]
fn good_texts() {
    use Level::{Debug, Error, Info, Trace, Warn};
    let table: [(&str, &[(&str, Level)]); 18] = [
        ("info", &[("", Info)]),
        ("app=info", &[("app", Info)]),
        (
            "app=info,app::db=trace,warn",
            &[("app", Info), ("app::db", Trace), ("", Warn)],
        ),
        ("app", &[("app", Trace)]),
        ("app,lib=error", &[("app", Trace), ("lib", Error)]),
        ("ERROR", &[("", Error)]),
        ("app=Debug", &[("app", Debug)]),
        (
            "1,a=2,b=3,c=4,d=5",
            &[("", Error), ("a", Warn), ("b", Info), ("c", Debug), ("d", Trace)],
        ),
        (" app = info , warn ", &[("app", Info), ("", Warn)]),
        (",app=info,,", &[("app", Info)]),
        ("app=info,app=error", &[("app", Info), ("app", Error)]),
        ("my-crate::module=debug", &[("my-crate::module", Debug)]),
        ("off", &[]),
        ("OFF,app=info", &[("app", Info)]),
        ("0", &[]),
        ("app=off", &[]),
        ("app=info,app=off", &[]),
        ("app=off,app=info,warn", &[("app", Info), ("", Warn)]),
    ];
    for (text, wanted) in table {
        let wanted: Vec<_> = wanted
            .iter()
            .map(|&(prefix, level)| (prefix.to_owned(), level))
            .collect();
        assert_eq!(pairs(text), Ok(wanted), "{text:?}");
    }
}

#[test]
fn bad_texts() {
    const OFF: &str = "a target can't be off where a shorter prefix admits something; the least is error";
    let table = [
        ("", "no directive".to_owned()),
        (" , ,", "no directive".to_owned()),
        ("app=loud", "directive `app=loud`: no such level".to_owned()),
        ("app=", "directive `app=`: no such level".to_owned()),
        ("app=6", "directive `app=6`: no such level".to_owned()),
        ("app=-1", "directive `app=-1`: no such level".to_owned()),
        (
            "app=info=warn",
            "directive `app=info=warn`: two equals signs".to_owned(),
        ),
        (
            "warn, =info",
            "directive `=info`: no target before the equals sign".to_owned(),
        ),
        (
            "[span]=info",
            "directive `[span]=info`: directives of spans and fields are not supported".to_owned(),
        ),
        (
            "app[{id}]=info",
            "directive `app[{id}]=info`: directives of spans and fields are not supported".to_owned(),
        ),
        ("info,app=off", format!("directive `app=off`: {OFF}")),
        ("app::db=off,app=warn", format!("directive `app::db=off`: {OFF}")),
        ("app=off,a=off,a=info", format!("directive `app=off`: {OFF}")),
    ];
    for (text, wanted) in table {
        assert_eq!(pairs(text), Err(wanted), "{text:?}");
    }
}

#[test]
fn off_is_said_where_it_says_something() {
    // What would be below is off itself, or decided by a later directive of the same prefix.
    assert_eq!(pairs("a=info,a=off,ab=off"), Ok(vec![]));
    assert_eq!(pairs("info,ab=off,ab=warn").map(|pairs| pairs.len()), Ok(2));
}

/// What the strict reading answers, where it is another than the usual one's.
fn refused(text: &str) -> Option<String> {
    let (usual, strict) = (text.parse::<Targets>(), Targets::parse_strict(text));
    assert!(usual.is_ok(), "{text:?}");
    let refused = strict.as_ref().err().map(ParseError::to_string);
    assert!(refused.is_some() || strict == usual, "{text:?}");
    refused
}

#[test]
fn a_misspelt_level_is_refused_by_the_strict_reading() {
    let table = [
        ("info", ["inof", "nfo", "inffo", "Ifno"]),
        ("warn", ["wran", "war", "warns", "ward"]),
        ("error", ["eror", "erorr", "errror", "terror"]),
        ("debug", ["dbug", "debgu", "DEBUGS", "debut"]),
        ("trace", ["trac", "tarce", "tracer", "grace"]),
        ("off", ["of", "fof", "offf", "oft"]),
        ("5", ["6", "10", "00", "99"]),
    ];
    for (level, words) in table {
        for word in words {
            let wanted = format!("directive `{word}`: is it `{level}`? A target of that name is `{word}=trace`");
            for text in [word.to_owned(), format!("app=info, {word} ,x=off")] {
                assert_eq!(refused(&text), Some(wanted.clone()));
            }
            assert_eq!(refused(&format!("{word}=trace,{word}::db=5")), None);
        }
    }
}

#[test]
fn the_strict_reading_takes_what_else_the_usual_one_takes() {
    let words = [
        "app",
        "db",
        "io",
        "tree",
        "warning",
        "fo",
        "informs",
        "wanr_x",
        "\u{ef}nfoo",
        "a",
        "5a",
        "web::inof",
    ];
    let levels = [
        "info",
        "WARN",
        "off",
        "0",
        "5",
        "app=info,app::db=trace,warn",
        "app=1,lib",
    ];
    for text in words.into_iter().chain(levels) {
        assert_eq!(refused(text), None, "{text:?}");
    }
    for text in ["", "app=loud", "inof=", "info,app=off", "[inof]"] {
        assert_eq!(Targets::parse_strict(text), text.parse(), "{text:?}");
    }
}

#[test]
fn the_text_of_targets_is_read_to_the_same_by_both() -> Result<(), ParseError> {
    let prefixes = ["", "app", "app::db", "inof", "trace", "6"];
    let pairs = || {
        prefixes
            .into_iter()
            .flat_map(|prefix| Level::ALL.map(|level| (prefix, level)))
    };
    for (one, other) in pairs().flat_map(|one| pairs().map(move |other| (one, other))) {
        let targets = Targets::from_iter([one, other]);
        let text = targets.to_string();
        assert_eq!(
            (text.parse()?, Targets::parse_strict(&text)?),
            (targets.clone(), targets)
        );
    }
    assert_eq!(Targets::new().to_string().parse(), Ok(Targets::new()));
    Ok(())
}

#[test]
fn levels_are_read() {
    for (level, number) in Level::ALL.into_iter().zip(1..) {
        let name = level.to_string();
        let mixed = format!("{}{}", &name[..1], name[1..].to_lowercase());
        for text in [name.to_lowercase(), name, mixed, number.to_string()] {
            assert_eq!(text.parse(), Ok(level), "{text:?}");
        }
    }
    for text in [
        "",
        "0",
        "6",
        "01",
        "+1",
        " info",
        "inof",
        "off",
        "warning",
        "\u{131}nfo",
    ] {
        let error = text.parse::<Level>().expect_err(text).to_string();
        let wanted = format!("no such level: {text:?} isn't error, warn, info, debug, trace or 1 to 5");
        assert_eq!(error, wanted);
    }
}
