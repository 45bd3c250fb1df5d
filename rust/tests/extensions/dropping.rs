//! What a value may do while it is dropped: all that the program may do elsewhere.
use crate::common::{assert_empty, compact, info, span, texts};
use crate::{carry, id_of, is_there, Value};
use span_registry::{event, span, Error, Level, OnFull, Parent, Registry, Span};
use std::panic::{catch_unwind, resume_unwind, AssertUnwindSafe};
use std::sync::mpsc::channel;
use std::sync::{Arc, Mutex};
use std::thread;
use std::time::Duration;

/// Calls this where it is dropped.
struct Last<F: FnMut() + Send + Sync + 'static>(F);

impl<F: FnMut() + Send + Sync + 'static> Drop for Last<F> {
    fn drop(&mut self) {
        (self.0)();
    }
}

/// Whatever the span carries last calls this.
fn at_close(span: &Span, call: impl FnMut() + Send + Sync + 'static) {
    assert_eq!(span.extensions().insert(Arc::new(Last(call))), Ok(true));
}

/// Runs it in a thread, which has to come to its end.
fn in_time<T: Send + 'static>(run: impl FnOnce() -> T + Send + 'static) -> T {
    let (ended, ends) = channel();
    thread::spawn(move || ended.send(run()));
    ends.recv_timeout(Duration::from_secs(60))
        .expect("it ends, and doesn't panic")
}

#[test]
fn it_may_log() {
    in_time(|| {
        for parts in [1, 2] {
            let (registry, mut drain) = compact().parts(parts).build().expect("it fits");
            let (outer, a) = (span(&registry, "outer"), span(&registry, "a"));
            let there = registry.clone();
            at_close(&a, move || {
                let b = span!(there, Level::Info, "b", n = 1);
                b.in_scope(|| event!(there, Level::Info, "m"));
                let own = there.find(b.id().expect("wanted"));
                assert_eq!(
                    (own.map(|own| own.handles), there.open_spans().map(|open| open.len())),
                    (Some(1), Ok(2))
                );
            });
            let inside = outer.enter();
            drop(a);
            drop(inside);
            let number = id_of(&outer).into_u64();
            drop(outer);
            let lines = texts(&mut drain);
            assert!(lines[3].starts_with("close ") && lines[3].ends_with(" a"), "{lines:?}");
            let kinds: Vec<&str> = lines[4..].iter().filter_map(|line| line.split(' ').next()).collect();
            assert_eq!(kinds, ["new", "enter", "event", "exit", "close", "exit", "close"]);
            // It is made where the thread is inside.
            assert!(
                lines[4].ends_with(" outer:b n=1") && lines[10].starts_with(&format!("close {number} ")),
                "{lines:?}"
            );
            assert_empty(&registry);
        }
    });
}

#[test]
fn it_may_drop_other_spans_that_carry_something() {
    const SPANS: u32 = 100;
    in_time(|| {
        let (registry, _drain) = compact().build().expect("it fits");
        let mut last = None;
        let mut seen = Vec::new();
        for _ in 0..SPANS {
            let a = span(&registry, "a");
            seen.push(carry(a.extensions()));
            let mut before = last.take();
            at_close(&a, move || drop(before.take()));
            last = Some(a);
        }
        drop(last);
        assert!(!seen.iter().any(is_there));
        assert_empty(&registry);
    });
}

#[test]
fn it_may_have_new_spans_carry_something() {
    in_time(|| {
        let (registry, _drain) = compact().slots(2).build().expect("it fits");
        let a = span(&registry, "a");
        let (there, kept) = (registry.clone(), Arc::new(Mutex::new(None)));
        let (keep, id) = (Arc::clone(&kept), id_of(&a));
        at_close(&a, move || {
            assert_eq!(there.extensions(id).contains::<Value>(), Err(Error::Unknown));
            // It has the slot of the one that closed.
            let next = span(&there, "next");
            let seen = carry(next.extensions());
            *keep.lock().expect("no panic") = Some((next, seen));
        });
        drop(a);
        let (next, seen) = kept.lock().expect("no panic").take().expect("it was made");
        assert_eq!(
            (id_of(&next).slot(), id_of(&next).generation(), is_there(&seen)),
            (0, 1, true)
        );
        drop(next);
        assert!(!is_there(&seen));
        assert_empty(&registry);
    });
}

#[test]
fn a_childs_comes_before_its_parents() {
    let (registry, _drain) = compact().build().expect("it fits");
    let dropped = Arc::new(Mutex::new(Vec::new()));
    let mut chain: Vec<Span> = Vec::new();
    for number in 0..20 {
        let parent = Parent::from(chain.last().and_then(Span::id));
        let span = registry.span(&info("a"), parent, &[]).expect("room");
        let all = Arc::clone(&dropped);
        at_close(&span, move || all.lock().expect("no panic").push(number));
        chain.push(span);
    }
    // The outermost first, so that all close with the last.
    drop(chain);
    assert!(dropped.lock().expect("no panic").iter().copied().eq((0..20).rev()));
}

fn panics() {
    resume_unwind(Box::new("on purpose"));
}

#[test]
fn what_it_panics_with_ends_there() {
    let ways: [fn(Span); 3] = [drop, |a| assert_eq!(a.try_close(), Ok(true)), |a| drop(a.entered())];
    in_time(move || {
        let (registry, _drain) = compact().build().expect("it fits");
        for close in ways {
            let a = span(&registry, "a");
            at_close(&a, panics);
            let seen = carry(a.extensions());
            let closed = catch_unwind(AssertUnwindSafe(|| close(a)));
            assert!(closed.is_ok() && !is_there(&seen));
            assert_empty(&registry);
        }
    });
}

#[test]
fn a_call_that_comes_to_drop_it_is_done_though_that_panics() {
    in_time(|| {
        let (registry, mut drain) = compact().ring(2).build().expect("it fits");
        let (a, b) = (span(&registry, "a"), span(&registry, "b"));
        at_close(&a, panics);
        let seen = carry(a.extensions());
        drop(a);
        assert_eq!(registry.counts().owed, 1);
        assert!(drain.line().is_some() && drain.line().is_some() && is_there(&seen));
        let inside = b.try_enter();
        assert_eq!(
            (inside.map(|inside| inside.is_first()), is_there(&seen)),
            (Ok(true), false)
        );
        drop(b);
        drain.lines().for_each(drop);
        assert_empty(&registry);
    });
}

#[test]
fn a_reader_that_comes_to_drop_it_waits_for_nobody() {
    in_time(|| {
        for look in [0, 1] {
            let (registry, mut drain) = compact().ring(1).on_full(OnFull::Wait).build().expect("it fits");
            let a = span(&registry, "a");
            let there = registry.clone();
            at_close(&a, move || event!(there, Level::Info, "last"));
            drop(a);
            assert_eq!(
                (registry.counts().owed, drain.line().map(|line| line.text)),
                (1, Some("new 1 w0 a".to_owned()))
            );
            // The close takes the only place, so there is none for what is told then.
            if look == 0 {
                assert_eq!(drain.line().map(|line| line.text), Some("close 1 w0 a".to_owned()));
            } else {
                assert_eq!(drain.open_spans().map(|open| open.len()), Ok(0));
                assert_eq!(drain.line().map(|line| line.text), Some("close 1 w0 a".to_owned()));
            }
            assert_eq!(registry.lost().by(&Error::Backlog), 1);
            assert_empty(&registry);
        }
    });
}

#[test]
fn a_writer_that_comes_to_drop_it_goes_on() {
    in_time(|| {
        let (registry, guard) = compact().ring(1).spawn_writer(std::io::sink()).expect("it fits");
        let mut seen = Vec::new();
        for _ in 0..500 {
            let a = span!(registry, Level::Info, "a");
            let there = registry.clone();
            at_close(&a, move || event!(there, Level::Info, "last"));
            seen.push(carry(a.extensions()));
        }
        guard.finish().expect("a sink takes all");
        assert!(!seen.iter().any(is_there));
        assert_empty(&registry);
    });
}

/// A root in another part than this one.
fn root_elsewhere(registry: &Registry, part: u32) -> Span {
    loop {
        let root = || registry.span(&info("other"), Parent::Root, &[]).expect("room");
        let other = thread::scope(|scope| scope.spawn(root).join()).expect("no panic");
        if id_of(&other).part() != part {
            return other;
        }
    }
}

#[test]
fn its_calls_go_where_the_thread_is_inside() -> Result<(), Error> {
    let ways: [fn(&Registry, Span); 3] = [
        |registry, other| {
            let (id, inside) = (id_of(&other), other.entered());
            assert_eq!(registry.try_close(id), Ok(false));
            drop(inside);
        },
        |registry, other| {
            let id = id_of(&other);
            assert_eq!(registry.enter(id), Ok(true));
            drop(other);
            assert_eq!(registry.exit(id), Ok(true));
        },
        |registry, other| {
            let id = id_of(&other);
            assert_eq!(registry.enter(id), Ok(true));
            drop(other);
            assert_eq!(registry.exit_or_owe(id), Ok(()));
        },
    ];
    for leave in ways {
        let (registry, mut drain) = compact().parts(2).build()?;
        let outer = span(&registry, "outer");
        let other = root_elsewhere(&registry, id_of(&outer).part());
        let there = registry.clone();
        at_close(&other, move || event!(there, Level::Info, "last"));
        let inside = outer.enter();
        leave(&registry, other);
        drop(inside);
        let lines = texts(&mut drain);
        assert!(lines.iter().any(|line| line.ends_with(" outer INFO last")), "{lines:?}");
    }
    Ok(())
}

#[test]
fn it_may_be_dropped_with_the_thread() {
    in_time(|| {
        for parts in [1, 3] {
            let (registry, mut drain) = compact().parts(parts).build().expect("it fits");
            let there = registry.clone();
            let forgetting = thread::spawn(move || {
                let a = span(&there, "a");
                let last = there.clone();
                at_close(&a, move || {
                    let late = span!(last, Level::Info, "late");
                    late.in_scope(|| event!(last, Level::Info, "later"));
                });
                std::mem::forget(a.clone().enter());
            });
            forgetting.join().expect("no panic");
            let lines = texts(&mut drain);
            assert!(lines.iter().any(|line| line.ends_with(" INFO later")), "{lines:?}");
            assert_empty(&registry);
        }
    });
}
