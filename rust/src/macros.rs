//! Spans and events whose values are formatted where they stand, and only where a layer wants them.
#![forbid(unsafe_code)]

/// A new span: `registry, [target: "..",] [parent: ..,] Level::.., "name" [, fields]`. The target is the module's
/// path, and the parent the current span, unless they are given; `parent: None` makes a root. Target, level and name
/// are constants.
///
/// Fields are written as in `tracing`:
///
/// | | key | value |
/// |---|---|---|
/// | `user = 1 + 1`, `r#type = 2` | `user`, `type` | displayed; numbers and truths keep their [`Kind`](crate::Kind) |
/// | `http.status = 200`, `"user name" = 3` | `http.status`, `user name` | the same |
/// | `user = %value`, `user = ?value` | `user` | the text of `Display`, of `Debug` |
/// | `user`, `%user`, `?user`, `user.name` | `user`, `user.name` | the variable or its field |
///
/// Where no layer wants the span, it costs a load and a branch: no value is formatted, and no lock and no place in the
/// ring is taken.
///
/// It answers no error: where the span is refused, it is disabled, and [`Registry::lost`](crate::Registry::lost)
/// counts it. [`try_span!`](crate::try_span) answers why. What a value borrows or locks is free again behind the
/// macro.
///
/// ```
/// # fn main() -> Result<(), span_registry::Error> {
/// # let (registry, mut drain) = span_registry::Registry::builder()
/// #     .layer(span_registry::Layer::compact()).build()?;
/// use span_registry::{span, Level};
/// let request = span!(registry, Level::Info, "request", method = "GET", tries = 1 + 1);
/// let query = span!(registry, target: "app::db", parent: &request, Level::Debug, "query");
/// # let lines: Vec<String> = drain.lines().map(|line| line.text).collect();
/// # assert_eq!(lines, ["new 1 w0 request method=GET tries=2", "new 2 w0 request:query"]);
/// # Ok(())
/// # }
/// ```
#[macro_export]
macro_rules! span {
    ($($arguments:tt)+) => {
        $crate::__span!(span, $crate::Span::none(), $($arguments)+)
    };
}

/// As [`span!`](crate::span), and answers what [`Registry::span`](crate::Registry::span) does.
///
/// ```
/// # fn main() -> Result<(), span_registry::Error> {
/// # let (registry, _drain) = span_registry::Registry::builder().build()?;
/// use span_registry::{try_span, Error, Level};
/// let request = try_span!(registry, Level::Info, "request", method = "GET")?;
/// let refused = try_span!(registry, Level::Info, "a name that would have more than 64 bytes as it is written");
/// assert!(matches!(refused, Err(Error::BadName(_))), "{refused:?}");
/// # Ok(())
/// # }
/// ```
#[macro_export]
macro_rules! try_span {
    ($($arguments:tt)+) => {
        $crate::__span!(try_span, ::core::result::Result::Ok::<_, $crate::Error>($crate::Span::none()), $($arguments)+)
    };
}

/// The call that makes a span, and what stands for it where no layer wants one.
#[doc(hidden)]
#[macro_export]
macro_rules! __span {
    (@made $call:ident, $none:expr, $registry:expr, $target:expr, $parent:expr, $level:expr, $name:expr,
        [$(($form:ident $key:expr, $value:expr))*] []) => {{
        static SITE: $crate::__private::Site =
            $crate::__private::Site::span($level, $target, $name, ::core::file!(), ::core::line!());
        // What the values borrow or lock ends with this statement, and not with the caller's.
        let made = match SITE.wanted_by(&$registry) {
            ::core::option::Option::Some(wanted) => wanted.$call(
                $crate::Parent::from($parent),
                [$($crate::__field!($form $key, $value)),*],
            ),
            ::core::option::Option::None => $none,
        };
        made
    }};
    (@of [$($head:tt)*] $level:expr, $name:expr $(, $($fields:tt)*)?) => {
        $crate::__fields!(span { __span @made $($head)*, $level, $name } [] $($($fields)*)?)
    };
    (@of [$($head:tt)*] $level:expr $(,)?) => {
        ::core::compile_error!("a span has a name, behind the level: Level::.., \"name\"")
    };
    (@of $($other:tt)*) => {
        ::core::compile_error!(
            "a span is: registry, [target: \"..\",] [parent: ..,] Level::.., \"name\" [, key = value]*"
        )
    };
    ($call:ident, $none:expr, Level::$level:ident $($rest:tt)*) => {
        ::core::compile_error!("the registry comes first: registry, Level::.., \"name\"")
    };
    ($call:ident, $none:expr, target: $($rest:tt)*) => {
        ::core::compile_error!("the registry comes first: registry, target: \"..\", Level::.., \"name\"")
    };
    ($call:ident, $none:expr, parent: $($rest:tt)*) => {
        ::core::compile_error!("the registry comes first: registry, parent: .., Level::.., \"name\"")
    };
    ($call:ident, $none:expr, $registry:expr, target: $target:expr, parent: $parent:expr, $($rest:tt)*) => {
        $crate::__span!(@of [$call, $none, $registry, $target, $parent] $($rest)*)
    };
    ($call:ident, $none:expr, $registry:expr, parent: $parent:expr, target: $($rest:tt)*) => {
        ::core::compile_error!("`target:` comes before `parent:`: registry, target: \"..\", parent: .., Level::..")
    };
    ($call:ident, $none:expr, $registry:expr, target: $target:expr, $($rest:tt)*) => {
        $crate::__span!(@of [$call, $none, $registry, $target, $crate::Parent::Current] $($rest)*)
    };
    ($call:ident, $none:expr, $registry:expr, parent: $parent:expr, $($rest:tt)*) => {
        $crate::__span!(@of [$call, $none, $registry, ::core::module_path!(), $parent] $($rest)*)
    };
    ($call:ident, $none:expr, $registry:expr, $($rest:tt)*) => {
        $crate::__span!(@of [$call, $none, $registry, ::core::module_path!(), $crate::Parent::Current] $($rest)*)
    };
    ($($other:tt)*) => {
        $crate::__span!(@of $($other)*)
    };
}

/// Fields one after another, and behind those of an event its message; then it calls what stands in braces with both.
/// What stands first says whether they are a `span`'s, an `event`'s, an event's in braces (`inner`), or a `record`'s.
#[doc(hidden)]
#[macro_export]
macro_rules! __fields {
    (inner { $next:ident [$($to:tt)*] [$($message:tt)*] } [$($done:tt)*] $(,)?) => {
        $crate::$next!($($to)*, [$($done)*] [$($message)*])
    };
    ($of:ident { $next:ident $($to:tt)* } [$($done:tt)*] $(,)?) => {
        $crate::$next!($($to)*, [$($done)*] [])
    };
    ($of:ident $to:tt [$($done:tt)*] $key:ident $(.$more:ident)* = ?$value:expr $(, $($rest:tt)*)?) => {
        $crate::__fields!($of $to [$($done)* (debug $crate::__key!($key $($more)*), $value)] $($($rest)*)?)
    };
    ($of:ident $to:tt [$($done:tt)*] $key:ident $(.$more:ident)* = %$value:expr $(, $($rest:tt)*)?) => {
        $crate::__fields!($of $to [$($done)* (display $crate::__key!($key $($more)*), $value)] $($($rest)*)?)
    };
    ($of:ident $to:tt [$($done:tt)*] $key:ident $(.$more:ident)* = $value:expr $(, $($rest:tt)*)?) => {
        $crate::__fields!($of $to [$($done)* (of_kind $crate::__key!($key $($more)*), $value)] $($($rest)*)?)
    };
    ($of:ident $to:tt [$($done:tt)*] $key:literal = ?$value:expr $(, $($rest:tt)*)?) => {
        $crate::__fields!($of $to [$($done)* (debug $key, $value)] $($($rest)*)?)
    };
    ($of:ident $to:tt [$($done:tt)*] $key:literal = %$value:expr $(, $($rest:tt)*)?) => {
        $crate::__fields!($of $to [$($done)* (display $key, $value)] $($($rest)*)?)
    };
    ($of:ident $to:tt [$($done:tt)*] $key:literal = $value:expr $(, $($rest:tt)*)?) => {
        $crate::__fields!($of $to [$($done)* (of_kind $key, $value)] $($($rest)*)?)
    };
    ($of:ident $to:tt [$($done:tt)*] ?$key:ident $(.$more:ident)* $(, $($rest:tt)*)?) => {
        $crate::__fields!($of $to [$($done)* (debug $crate::__key!($key $($more)*), $key $(.$more)*)] $($($rest)*)?)
    };
    ($of:ident $to:tt [$($done:tt)*] %$key:ident $(.$more:ident)* $(, $($rest:tt)*)?) => {
        $crate::__fields!($of $to [$($done)* (display $crate::__key!($key $($more)*), $key $(.$more)*)] $($($rest)*)?)
    };
    ($of:ident $to:tt [$($done:tt)*] $key:ident $(.$more:ident)* $(, $($rest:tt)*)?) => {
        $crate::__fields!($of $to [$($done)* (of_kind $crate::__key!($key $($more)*), $key $(.$more)*)] $($($rest)*)?)
    };
    (event { $next:ident $($to:tt)* } $done:tt $message:literal $($arguments:tt)*) => {
        $crate::$next!($($to)*, $done [$message $($arguments)*])
    };
    (event { $next:ident $($to:tt)* } $done:tt $message:ident!$($arguments:tt)*) => {
        $crate::$next!($($to)*, $done [$message!$($arguments)*])
    };
    ($of:ident $to:tt $done:tt $key:ident $(.$more:ident)* = $value:expr; $($rest:tt)*) => {
        ::core::compile_error!("fields have commas between them, and no `;`")
    };
    (record $to:tt $done:tt $key:ident: $($rest:tt)*) => {
        ::core::compile_error!("a field is `key = value`; a span's target and parent stay as they are")
    };
    ($of:ident $to:tt $done:tt $key:ident: $($rest:tt)*) => {
        ::core::compile_error!("a field is `key = value`; `target:` and `parent:` stand before the level")
    };
    (span $to:tt $done:tt $message:literal $($rest:tt)*) => {
        ::core::compile_error!("a span has no message behind its name: put it into a field, or into an event")
    };
    (record $to:tt $done:tt $message:literal $($rest:tt)*) => {
        ::core::compile_error!("a record has no message: put it into a field, or into an event")
    };
    ($of:ident $to:tt $done:tt $($other:tt)*) => {
        ::core::compile_error!("a field is: key = value, key = ?value, key = %value, key, ?key or %key")
    };
}

/// A key of one identifier or several with dots between them: a text, and no code that runs.
#[doc(hidden)]
#[macro_export]
macro_rules! __key {
    ($key:ident $($more:ident)*) => {{
        const IDENTIFIERS: &str = ::core::concat!(::core::stringify!($key) $(, ".", ::core::stringify!($more))*);
        const KEY: &$crate::__private::Key<{ IDENTIFIERS.len() }> = &$crate::__private::Key::of(IDENTIFIERS);
        const TEXT: &str = KEY.text();
        TEXT
    }};
}

/// A field of one.
#[doc(hidden)]
#[macro_export]
macro_rules! __field {
    (of_kind $key:expr, $value:expr) => {
        match &$value {
            value => {
                #[allow(unused_imports)]
                use $crate::__private::{OfKind as _, OfText as _};
                let asked = &$crate::__private::Asked(value);
                ($key, ::std::string::ToString::to_string(value), asked.kind())
            }
        }
    };
    (display $key:expr, $value:expr) => {
        ($key, ::std::string::ToString::to_string(&$value), $crate::Kind::Text)
    };
    (debug $key:expr, $value:expr) => {
        ($key, ::std::format!("{:?}", &$value), $crate::Kind::Text)
    };
}

/// An event: `registry, [target: "..",] [parent: ..,] Level::.., [fields,] ["message", ..]`. Fields are those of
/// [`span!`](crate::span), and may stand in braces; the message comes last, with what it formats. The target is the
/// module's path, unless it is given. Target and level are constants. Where no layer wants it, it costs what a span
/// does.
///
/// It is told in the span that the thread is inside of, unless a parent is given; `parent: None` tells it in none.
///
/// It answers no error: where it is refused, [`Registry::lost`](crate::Registry::lost) counts it.
/// [`try_event!`](crate::try_event) answers why.
///
/// ```
/// # fn main() -> Result<(), span_registry::Error> {
/// # let (registry, mut drain) = span_registry::Registry::builder()
/// #     .layer(span_registry::Layer::compact()).build()?;
/// use span_registry::{event, Level};
/// let rows = 3;
/// event!(registry, Level::Info, "started");
/// event!(registry, target: "app::db", Level::Debug, { rows = rows, cached = false }, "read {rows} of {}", 7);
/// # let request = span_registry::span!(registry, Level::Info, "request");
/// event!(registry, parent: &request, Level::Info, "queued");
/// # let lines: Vec<String> = drain.lines().map(|line| line.text).collect();
/// # assert_eq!(lines[..2], ["event 0 w0 - INFO started", "event 0 w0 - DEBUG read 3 of 7 rows=3 cached=false"]);
/// # assert_eq!(lines[3], "event 1 w0 request INFO queued");
/// # Ok(())
/// # }
/// ```
#[macro_export]
macro_rules! event {
    ($($arguments:tt)+) => {
        $crate::__event!(event, (), $($arguments)+)
    };
}

/// As [`event!`](crate::event), and answers what [`Registry::event`](crate::Registry::event) does.
///
/// ```
/// # fn main() -> Result<(), span_registry::Error> {
/// # let (registry, _drain) = span_registry::Registry::builder().ring(1)
/// #     .layer(span_registry::Layer::compact()).build()?;
/// use span_registry::{try_event, Error, Level};
/// try_event!(registry, Level::Info, "started")?;
/// assert_eq!(try_event!(registry, Level::Info, "nobody reads"), Err(Error::Backlog));
/// # Ok(())
/// # }
/// ```
#[macro_export]
macro_rules! try_event {
    ($($arguments:tt)+) => {
        $crate::__event!(try_event, ::core::result::Result::Ok::<(), $crate::Error>(()), $($arguments)+)
    };
}

/// The call that tells an event, and what stands for it where no layer wants one.
#[doc(hidden)]
#[macro_export]
macro_rules! __event {
    (@told $call:ident, $none:expr, $registry:expr, $target:expr, $parent:expr, $level:expr,
        [$(($form:ident $key:expr, $value:expr))*] [$($message:tt)*]) => {{
        static SITE: $crate::__private::Site =
            $crate::__private::Site::event($level, $target, ::core::file!(), ::core::line!());
        // As of a span.
        let told = match SITE.wanted_by(&$registry) {
            ::core::option::Option::Some(wanted) => wanted.$call(
                $crate::Parent::from($parent),
                &$crate::__message!($($message)*),
                [$($crate::__field!($form $key, $value)),*],
            ),
            ::core::option::Option::None => $none,
        };
        told
    }};
    (@of [$($head:tt)*] $level:expr, { $($fields:tt)* } $(, $($message:tt)*)?) => {
        $crate::__fields!(inner { __event [@told $($head)*, $level] [$($($message)*)?] } [] $($fields)*)
    };
    (@of [$($head:tt)*] $level:expr, $($rest:tt)+) => {
        $crate::__fields!(event { __event @told $($head)*, $level } [] $($rest)+)
    };
    (@of $($other:tt)*) => {
        ::core::compile_error!(
            "an event is: registry, [target: \"..\",] [parent: ..,] Level::.., [key = value,]* \"message\" [, argument]*"
        )
    };
    ($call:ident, $none:expr, Level::$level:ident $($rest:tt)*) => {
        ::core::compile_error!("the registry comes first: registry, Level::.., \"message\"")
    };
    ($call:ident, $none:expr, target: $($rest:tt)*) => {
        ::core::compile_error!("the registry comes first: registry, target: \"..\", Level::.., \"message\"")
    };
    ($call:ident, $none:expr, parent: $($rest:tt)*) => {
        ::core::compile_error!("the registry comes first: registry, parent: .., Level::.., \"message\"")
    };
    ($call:ident, $none:expr, $registry:expr, target: $target:expr, parent: $parent:expr, $($rest:tt)*) => {
        $crate::__event!(@of [$call, $none, $registry, $target, $parent] $($rest)*)
    };
    ($call:ident, $none:expr, $registry:expr, parent: $parent:expr, target: $($rest:tt)*) => {
        ::core::compile_error!("`target:` comes before `parent:`: registry, target: \"..\", parent: .., Level::..")
    };
    ($call:ident, $none:expr, $registry:expr, target: $target:expr, $($rest:tt)*) => {
        $crate::__event!(@of [$call, $none, $registry, $target, $crate::Parent::Current] $($rest)*)
    };
    ($call:ident, $none:expr, $registry:expr, parent: $parent:expr, $($rest:tt)*) => {
        $crate::__event!(@of [$call, $none, $registry, ::core::module_path!(), $parent] $($rest)*)
    };
    ($call:ident, $none:expr, $registry:expr, $($rest:tt)*) => {
        $crate::__event!(@of [$call, $none, $registry, ::core::module_path!(), $crate::Parent::Current] $($rest)*)
    };
    ($($other:tt)*) => {
        $crate::__event!(@of $($other)*)
    };
}

/// Records fields of a span that is open already: `span, fields`. Fields are those of [`span!`](crate::span), and their
/// values keep their kinds, where [`Span::record`](crate::Span::record) takes texts. They come behind the span's others,
/// and a repeated key stands twice. The span is a [`Span`](crate::Span), an [`EnteredSpan`](crate::EnteredSpan) or a
/// reference to one. Where it is disabled, no value is formatted.
///
/// It answers no error: where it is refused, [`Registry::lost`](crate::Registry::lost) counts it.
/// [`try_record!`](crate::try_record) answers why.
///
/// ```
/// # fn main() -> Result<(), span_registry::Error> {
/// # let (registry, mut drain) = span_registry::Registry::builder()
/// #     .layer(span_registry::Layer::tree()).build()?;
/// use span_registry::{record, span, Kind, Level};
/// let request = span!(registry, Level::Info, "request", path = "/users");
/// let user = Some("Ada");
/// record!(request, status = 200, ?user, response.is_cached = false);
/// # drop(request);
/// # let notes: Vec<_> = std::iter::from_fn(|| drain.note()).collect();
/// let wanted = [
///     ("path", Kind::Text, "/users"),
///     ("status", Kind::Integer, "200"),
///     ("user", Kind::Text, "Some(\"Ada\")"),
///     ("response.is_cached", Kind::Bool, "false"),
/// ];
/// # for (note, wanted) in notes[1..].iter().zip([&wanted[1..], &wanted]) {
/// #     let fields = note.fields.iter().map(|field| (&*field.key, field.kind, &*field.value));
/// #     assert_eq!(fields.collect::<Vec<_>>(), wanted);
/// # }
/// # assert_eq!(notes.len(), 3);
/// # Ok(())
/// # }
/// ```
#[macro_export]
macro_rules! record {
    ($($arguments:tt)*) => {
        $crate::__record!(record, (), $($arguments)*)
    };
}

/// As [`record!`](crate::record), and answers what [`Span::try_record`](crate::Span::try_record) does.
///
/// ```
/// # fn main() -> Result<(), span_registry::Error> {
/// # let (registry, _drain) = span_registry::Registry::builder().build()?;
/// use span_registry::{span, try_record, Error, Level};
/// let request = span!(registry, Level::Info, "request");
/// try_record!(request, status = 200)?;
/// let refused = try_record!(request, "a key that would have more than 64 bytes as it is written, with blanks" = 1);
/// assert!(matches!(refused, Err(Error::BadName(_))), "{refused:?}");
/// # Ok(())
/// # }
/// ```
#[macro_export]
macro_rules! try_record {
    ($($arguments:tt)*) => {
        $crate::__record!(try_record, ::core::result::Result::Ok::<(), $crate::Error>(()), $($arguments)*)
    };
}

/// The call that records fields, and what stands for it where the span is disabled.
#[doc(hidden)]
#[macro_export]
macro_rules! __record {
    (@put $call:ident, $none:expr, $span:expr, [$(($form:ident $key:expr, $value:expr))*] []) => {{
        // As of a span. (Behind a `match` of its own it may also be what a block or an `if` gives.)
        let put = match &$span {
            span => match $crate::__private::Recording::of(span) {
                ::core::option::Option::Some(recording) => {
                    recording.$call([$($crate::__field!($form $key, $value)),*])
                }
                ::core::option::Option::None => $none,
            },
        };
        put
    }};
    ($call:ident, $none:expr, $key:ident $(.$more:ident)* = $($rest:tt)*) => {
        ::core::compile_error!("the span comes first: span, key = value")
    };
    ($call:ident, $none:expr, $key:literal $($rest:tt)*) => {
        ::core::compile_error!("the span comes first: span, key = value")
    };
    ($call:ident, $none:expr, $span:expr, $($fields:tt)+) => {
        $crate::__fields!(record { __record @put $call, $none, $span } [] $($fields)+)
    };
    ($($other:tt)*) => {
        ::core::compile_error!("a record is: span, key = value [, key = value]*")
    };
}

/// An event's message, which may be left out.
#[doc(hidden)]
#[macro_export]
macro_rules! __message {
    () => {
        ""
    };
    ($($message:tt)+) => {
        ::std::format!($($message)+)
    };
}
