//! What each call of `tracing`'s macros becomes, of one thread.
mod common;
use common::{alone, assert_clean, assert_closed, compact, over, texts};
use span_registry::{Error, Kind, Layer, Level, NoteKind};
use std::cell::Cell;
use std::fmt;
use std::panic::{catch_unwind, AssertUnwindSafe};
use tracing::dispatcher::with_default;
use tracing::field::Empty;
use tracing::span::Id;
use tracing::{debug, debug_span, event, info, info_span, span, trace_span, warn, Dispatch, Span};
use tracing_span_registry::ProvedSubscriber;
use tracing_subscriber::filter::{EnvFilter, LevelFilter};
use tracing_subscriber::prelude::*;

#[test]
fn each_call_has_its_line() {
    let _alone = alone();
    let targets = "info,app::db=debug".parse().expect("targets");
    let builder = ProvedSubscriber::builder().layer(Layer::compact().with_targets(targets));
    let (subscriber, dispatch, mut drain) = over(builder);
    with_default(&dispatch, || {
        let request = info_span!(target: "app", "GET /users", http.method = "GET", r#type = 7, late = Empty);
        let inside = request.enter();
        assert_eq!(Span::current().id(), request.id());
        assert_eq!(Span::current().metadata().map(|metadata| metadata.name()), Some("GET /users"));
        debug!(target: "app::db", rows = 3, "all rows" = true, "read {}", "them");
        debug!(target: "app", "not wanted");
        let query = debug_span!(target: "app::db", "query", sql = ?"a b");
        query.follows_from(&request);
        let clone = query.clone();
        drop(query);
        request.record("late", "now");
        warn!(target: "app", parent: &clone, "of the query");
        drop((clone, inside));
        let root = span!(target: "app", parent: None, tracing::Level::INFO, "root");
        drop(info_span!(target: "app", parent: &root, "child", x = %1.5));
        event!(target: "app", parent: None, tracing::Level::INFO, "of none");
    });
    let wanted = [
        "new 1 w0 GET__users name=GET /users http.method=GET type=7",
        "enter 1 w0 GET__users",
        "event 1 w0 GET__users DEBUG read them rows=3 all_rows=true",
        "new 2 w0 GET__users:query sql=\"a b\"",
        "record 2 w0 GET__users:query follows_from=1",
        "record 1 w0 GET__users late=now",
        "event 1 w0 GET__users WARN of the query parent=2",
        "close 2 w0 GET__users:query sql=\"a b\" follows_from=1",
        "exit 1 w0 GET__users",
        "new 16777218 w0 root",
        "new 3 w0 root:child x=1.5",
        "close 3 w0 root:child x=1.5",
        "event 0 w0 - INFO of none parent=0",
        "close 16777218 w0 root",
        "close 1 w0 GET__users name=GET /users http.method=GET type=7 late=now",
    ];
    assert_eq!(texts(&mut drain), wanted);
    assert_clean(&subscriber);
}

#[test]
fn values_keep_their_kinds() {
    let _alone = alone();
    let (subscriber, dispatch, mut drain) = over(ProvedSubscriber::builder().layer(Layer::tree()));
    with_default(&dispatch, || {
        let span =
            info_span!("kinds", n = -3, u = 4_u8, big = u128::MAX, f = 2.5, b = true, t = "3", d = ?7, none = Empty);
        span.record("none", 8);
        span.follows_from(&span);
        info!(parent: &span, rows = 3, ok = false, "m");
    });
    let notes: Vec<_> = std::iter::from_fn(|| drain.note()).collect();
    let kinds = |kind: NoteKind| -> Vec<(String, Kind)> {
        let note = notes.iter().find(|note| note.kind == kind).expect("it is told");
        note.fields.iter().map(|field| (field.key.clone(), field.kind)).collect()
    };
    let [i, f, b, t] = [Kind::Integer, Kind::Float, Kind::Bool, Kind::Text];
    let given = [("n", i), ("u", i), ("big", i), ("f", f), ("b", b), ("t", t), ("d", t)];
    assert_eq!(kinds(NoteKind::New), given.map(|(key, kind)| (key.to_owned(), kind)));
    assert_eq!(kinds(NoteKind::Record), [("none".to_owned(), i)]);
    let all = given.into_iter().chain([("none", i), ("follows_from", i)]);
    assert_eq!(kinds(NoteKind::Close), all.map(|(key, kind)| (key.to_owned(), kind)).collect::<Vec<_>>());
    let given = [("parent", i), ("rows", i), ("ok", b)];
    assert_eq!(kinds(NoteKind::Event), given.map(|(key, kind)| (key.to_owned(), kind)));
    let line = notes[0].to_string();
    assert!(line.contains("[\"f\",2.5]") && line.contains("[\"t\",\"3\"]"), "{line}");
    assert_clean(&subscriber);
}

/// Counts how often its text is made.
struct Counted<'a>(&'a Cell<u32>);

impl fmt::Display for Counted<'_> {
    fn fmt(&self, f: &mut fmt::Formatter<'_>) -> fmt::Result {
        self.0.set(self.0.get() + 1);
        f.write_str("text")
    }
}

#[test]
fn what_no_layer_wants_is_no_call() {
    let _alone = alone();
    let made = Cell::new(0);
    let builder = ProvedSubscriber::builder().layer(Layer::compact().with_max_level(Level::Warn));
    let (subscriber, dispatch, _drain) = over(builder);
    with_default(&dispatch, || {
        assert_eq!(LevelFilter::current(), LevelFilter::WARN);
        for _ in 0..100 {
            info!(v = %Counted(&made), "m");
            let span = debug_span!("s", v = %Counted(&made));
            let _inside = span.enter();
        }
        assert!(debug_span!("s").is_disabled());
        warn!(v = %Counted(&made), "m");
    });
    assert_eq!((made.get(), subscriber.registry().counts().calls), (1, 1));
    assert_clean(&subscriber);
}

#[test]
fn with_no_layer_spans_are_made_and_nothing_is_told() {
    let _alone = alone();
    let (subscriber, dispatch, mut drain) = over(ProvedSubscriber::builder());
    with_default(&dispatch, || {
        let span = trace_span!("s", k = 1);
        span.in_scope(|| info!("m"));
        assert_eq!(subscriber.registry().open_spans().expect("memory").to_string().lines().count(), 1);
    });
    assert_eq!((texts(&mut drain).len(), subscriber.registry().counts().made), (0, 1));
    assert_clean(&subscriber);
}

#[test]
fn a_global_filter_of_tracing_subscriber_may_stand_above() {
    let _alone = alone();
    let (subscriber, _, mut drain) = over(compact());
    let run = |dispatch: Dispatch| {
        with_default(&dispatch, || {
            let span = info_span!("s");
            let _inside = span.enter();
            debug!("not wanted");
            assert!(debug_span!("not wanted").is_disabled());
        });
        texts(&mut drain).iter().map(|line| line.split(' ').next().unwrap_or_default().to_owned()).collect::<Vec<_>>()
    };
    let both = [LevelFilter::INFO.boxed(), EnvFilter::new("info").boxed()]
        .map(|filter| Dispatch::new(subscriber.clone().with(filter)));
    assert_eq!(both.map(run), [["new", "enter", "exit", "close"]; 2]);
    assert_clean(&subscriber);
}

#[test]
fn a_parent_that_has_closed_makes_a_root_and_is_counted() {
    let _alone = alone();
    let (subscriber, dispatch, mut drain) = over(compact());
    with_default(&dispatch, || {
        let a = info_span!("a");
        let id = a.id();
        drop(a);
        drop(info_span!(parent: id.clone(), "late"));
        info!(parent: id, "late too");
        drop(info_span!(parent: Id::from_u64(u64::MAX), "of a span that wasn't made"));
    });
    let lines = texts(&mut drain);
    assert!(lines.contains(&"new 16777217 w0 late".to_owned()), "{lines:?}");
    assert!(lines.contains(&"event 0 w0 - INFO late too parent=1".to_owned()), "{lines:?}");
    assert_eq!(subscriber.lost().to_string(), "unknown=1");
    assert_closed(&subscriber);
}

#[test]
fn ids_given_back_too_often_close_nothing_too_early() {
    let _alone = alone();
    let (subscriber, dispatch, _drain) = over(compact().slots(1));
    with_default(&dispatch, || {
        let a = info_span!("a");
        let id = a.id().expect("it is wanted");
        drop(a);
        assert!(!dispatch.try_close(id.clone()));
        // The slot is the same, and the id isn't.
        let held = info_span!("held");
        assert_ne!(held.id(), Some(id.clone()));
        assert!(!dispatch.try_close(id));
        // A handle too many is given back while the thread is inside: it stays open as long as that.
        let inside = held.enter();
        assert!(!dispatch.try_close(held.id().expect("it is wanted")));
        assert_eq!(subscriber.registry().counts().open, 1);
        drop(inside);
        assert_eq!(subscriber.registry().counts().open, 0);
        drop(held);
    });
    assert_eq!(subscriber.lost().by(&Error::Unknown), 3);
    assert_closed(&subscriber);
}

#[test]
fn ids_of_nothing_are_misuse_and_do_nothing() {
    let _alone = alone();
    let (subscriber, dispatch, mut drain) = over(compact());
    with_default(&dispatch, || {
        let held = info_span!("held");
        for forged in [1 << 60, 77, u64::MAX] {
            let forged = Id::from_u64(forged);
            dispatch.enter(&forged);
            dispatch.exit(&forged);
            dispatch.record_follows_from(&forged, &forged);
            assert!(!dispatch.try_close(dispatch.clone_span(&forged)));
        }
        let held = held.id().expect("it is wanted");
        dispatch.exit(&held);
    });
    // Of 77 the entry, the record and the clone; what goes with them is skipped.
    assert_eq!(subscriber.lost().to_string(), "unknown=3 not_entered=1");
    assert_eq!(texts(&mut drain), ["new 1 w0 held", "close 1 w0 held"]);
    assert_closed(&subscriber);
}

#[test]
fn what_is_refused_is_counted_by_reason() {
    let _alone = alone();
    let (subscriber, dispatch, mut drain) = over(compact().slots(2).max_count(3).ring(64));
    with_default(&dispatch, || {
        let a = info_span!("a");
        let b = info_span!("b");
        drop(info_span!("c"));
        assert_eq!(subscriber.lost().by(&Error::Full), 1);
        let clones = [a.clone(), a.clone(), a.clone()];
        // Two of the clones hold nothing, and neither does the entry.
        assert_eq!(subscriber.lost().by(&Error::CountFull), 1);
        a.in_scope(|| info!("outside"));
        assert_eq!(subscriber.lost().by(&Error::CountFull), 2);
        drop((clones, a, b));
        assert_closed(&subscriber);
        for _ in 0..80 {
            info!("m");
        }
    });
    let lost = subscriber.lost();
    assert_eq!((lost.by(&Error::Full), lost.calls()), (1, 3 + lost.by(&Error::Backlog)));
    assert!(lost.by(&Error::Backlog) > 16, "{lost}");
    let lines = texts(&mut drain);
    assert!(lines.contains(&"event 0 w0 - INFO outside".to_owned()), "{lines:?}");
    // What the package counts it tells, once there is room.
    assert!(lines.iter().any(|line| line.contains("WARN lost full=1")), "{lines:?}");
}

#[test]
fn a_value_may_make_spans() {
    struct Speaking;
    impl fmt::Debug for Speaking {
        fn fmt(&self, f: &mut fmt::Formatter<'_>) -> fmt::Result {
            info_span!("within").in_scope(|| info!("within"));
            f.write_str("spoke")
        }
    }
    let _alone = alone();
    let (subscriber, dispatch, mut drain) = over(compact());
    with_default(&dispatch, || drop(info_span!("outer", v = ?Speaking)));
    let lines = texts(&mut drain);
    assert!(lines.iter().any(|line| line.ends_with(" w0 outer v=spoke")), "{lines:?}");
    assert_clean(&subscriber);
}

#[test]
fn a_value_that_panics_leaves_nothing() {
    struct Panics;
    impl fmt::Debug for Panics {
        fn fmt(&self, _: &mut fmt::Formatter<'_>) -> fmt::Result {
            panic!("while a value is formatted")
        }
    }
    let _alone = alone();
    let (subscriber, dispatch, mut drain) = over(compact());
    with_default(&dispatch, || {
        let span = info_span!("s", later = Empty);
        let calls: [&dyn Fn(); 3] =
            [&|| drop(info_span!("never", v = ?Panics)), &|| info!(v = ?Panics, "never"), &|| {
                span.record("later", tracing::field::debug(Panics));
            }];
        for call in calls {
            let within = span.clone();
            let panics = AssertUnwindSafe(|| within.in_scope(call));
            assert!(catch_unwind(panics).is_err());
        }
    });
    let lines = texts(&mut drain);
    assert_eq!((lines.len(), lines.last().map(String::as_str)), (8, Some("close 1 w0 s")));
    assert_clean(&subscriber);
}

#[test]
fn as_many_fields_as_tracing_has_are_told() {
    let _alone = alone();
    let (subscriber, dispatch, mut drain) = over(compact());
    with_default(&dispatch, || {
        drop(info_span!(
            "a b",
            f0 = 0,
            f1 = 1,
            f2 = 2,
            f3 = 3,
            f4 = 4,
            f5 = 5,
            f6 = 6,
            f7 = 7,
            f8 = 8,
            f9 = 9,
            f10 = 10,
            f11 = 11,
            f12 = 12,
            f13 = 13,
            f14 = 14,
            f15 = 15,
            f16 = 16,
            f17 = 17,
            f18 = 18,
            f19 = 19,
            f20 = 20,
            f21 = 21,
            f22 = 22,
            f23 = 23,
            f24 = 24,
            f25 = 25,
            f26 = 26,
            f27 = 27,
            f28 = 28,
            f29 = 29,
            f30 = 30,
            f31 = 31
        ));
    });
    let lines = texts(&mut drain);
    assert!(lines[0].starts_with("new 1 w0 a_b name=a b f0=0 ") && lines[0].ends_with(" f31=31"), "{lines:?}");
    assert_clean(&subscriber);
}

#[test]
fn records_of_log_keep_their_levels() {
    let _alone = alone();
    let (subscriber, dispatch, mut drain) = over(compact());
    with_default(&dispatch, || {
        for level in log::Level::iter() {
            let record = log::Record::builder().args(format_args!("m")).level(level).target("app::db").build();
            tracing_log::format_trace(&record).expect("it never fails");
        }
    });
    let wanted = log::Level::iter().map(|level| format!("event 0 w0 - {level} m log.target=app::db"));
    assert_eq!(texts(&mut drain), wanted.collect::<Vec<_>>());
    assert_clean(&subscriber);
}
