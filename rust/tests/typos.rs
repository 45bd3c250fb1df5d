//! What the compiler says of a macro that is written wrong: each small program is compiled, one after another, where
//! there is a compiler.
#[path = "common/compiling.rs"]
mod compiling;

use compiling::Compiling;

/// The statement, and what the compiler has to say of it; nothing where it is right.
const PROGRAMS: [(&str, &str); 33] = [
    // Of a variable that isn't there the compiler says so by itself.
    (
        r#"span!(r, Level::Info, "x", user);"#,
        "cannot find value `user` in this scope",
    ),
    (
        r#"span!(r, Level::Info, "x", a = 1; b = 2);"#,
        "fields have commas between them, and no `;`",
    ),
    (
        r#"span!(Level::Info, "x");"#,
        "the registry comes first: registry, Level::..",
    ),
    (r#"event!(r, Level::Info, user = 3, "x");"#, ""),
    (r#"span!(r, Level::Info, "x", http.method = "GET");"#, ""),
    (r#"span!(r, Level::Info, "x", s = ?S);"#, ""),
    (
        r#"event!(parent: None, Level::Info, "x");"#,
        "the registry comes first: registry, parent:",
    ),
    (
        r#"span!(r, parent: Parent::Root, target: "t", Level::Info, "x");"#,
        "`target:` comes before `parent:`",
    ),
    (
        r#"span!(target: "t", Level::Info, "x");"#,
        "the registry comes first: registry, target:",
    ),
    (
        r#"event!(Level::Info, "x");"#,
        "the registry comes first: registry, Level::..",
    ),
    (
        r#"event!(r, parent: None, target: "t", Level::Info, "x");"#,
        "`target:` comes before `parent:`",
    ),
    (r#"span!(r, Level::Info);"#, "a span has a name, behind the level"),
    (
        r#"span!(r, Level::Info, "x", "started");"#,
        "a span has no message behind its name",
    ),
    (r#"span!(r, Level::Info, "x", a: 1);"#, "a field is `key = value`"),
    (
        r#"span!(r, Level::Info, "x", target: "t");"#,
        "`target:` and `parent:` stand before the level",
    ),
    (
        r#"span!(r, Level::Info, "x", a + 1);"#,
        "a field is: key = value, key = ?value",
    ),
    (r#"event!(r, Level::Info);"#, "an event is: registry, "),
    (
        r#"event!(r, Level::Info, { "x" });"#,
        "a field is: key = value, key = ?value",
    ),
    (
        r#"event!(r, Level::Info, a = 1; "x");"#,
        "fields have commas between them, and no `;`",
    ),
    (
        r#"span!(r, Level::Info, "x", s = S);"#,
        "the trait `std::fmt::Display` is not implemented for `S`",
    ),
    (r#"record!(s, http.status = 200, %n, ?S, "a key" = true,);"#, ""),
    (r#"try_record!(&s, n)?;"#, ""),
    (r#"record!(status = 200);"#, "the span comes first: span, key = value"),
    (
        r#"record!(http.status = 200, n = 1);"#,
        "the span comes first: span, key = value",
    ),
    (r#"record!("k" = 1);"#, "the span comes first: span, key = value"),
    (r#"record!(s);"#, "a record is: span, key = value [, key = value]*"),
    (r#"record!(?n, s);"#, "a record is: span, key = value [, key = value]*"),
    (
        r#"record!(s, n = 1; b = 2);"#,
        "fields have commas between them, and no `;`",
    ),
    (r#"record!(s, "done");"#, "a record has no message"),
    (r#"record!(s, parent: None);"#, "a span's target and parent stay"),
    (r#"record!(s, &[("k", "v")]);"#, "a field is: key = value, key = ?value"),
    (r#"record!(r, n = 1);"#, "expected `&Span`, found `&Registry`"),
    (
        r#"try_record!(s, s = S);"#,
        "the trait `std::fmt::Display` is not implemented for `S`",
    ),
];

#[test]
fn each_typo_has_an_error_that_says_what_is_wrong() {
    let Some(compiling) = Compiling::new("typos") else {
        return;
    };
    for (statement, wanted) in PROGRAMS {
        let (is_right, said) = compiling.said_of(&format!("let _ = {statement}"));
        assert_eq!(is_right, wanted.is_empty(), "{statement}\n{said}");
        assert!(said.contains(wanted), "{statement}\n{said}");
        assert!(!said.contains("recursion limit"), "{statement}\n{said}");
    }
}
