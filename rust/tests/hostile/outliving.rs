//! Threads, futures and writers that outlive the registry, its drain or one another.
use crate::common::{assert_empty, compact, info, span, texts};
use crate::{many, Random};
use span_registry::{event, span, EnteredSpan, Error, Instrument, Level, OnFull, Parent, Registry, Span};
use std::cell::RefCell;
use std::future::{pending, Future};
use std::io::{self, Write};
use std::panic::{catch_unwind, AssertUnwindSafe};
use std::pin::Pin;
use std::sync::mpsc::{channel, Sender};
use std::sync::{Arc, Barrier};
use std::task::{Context, Wake, Waker};
use std::thread;
use std::time::Duration;

/// What is dropped with the thread: guards and spans, and what their drop makes of them.
#[derive(Default)]
struct Last {
    inside: Vec<EnteredSpan>,
    registry: Option<Registry>,
}

thread_local! {
    static BEFORE: RefCell<Last> = RefCell::default();
    static BEHIND: RefCell<Last> = RefCell::default();
}

/// Calls of all kinds while the thread's locals are dropped.
impl Drop for Last {
    fn drop(&mut self) {
        if let Some(registry) = &self.registry {
            event!(registry, Level::Info, "late");
            let late = span!(registry, Level::Info, "late");
            late.in_scope(|| event!(registry, Level::Info, "later"));
            let _may_be_refused = (late.try_enter().map(drop), registry.current_span(), registry.settle());
            self.inside.extend(late.try_entered().ok());
        }
        while let Some(inside) = self.inside.pop() {
            inside.record(&[("k", "v")]);
            drop(inside);
        }
    }
}

#[test]
fn guards_that_are_dropped_with_their_thread_leave_nothing() -> Result<(), Error> {
    for parts in [1, 3] {
        let (registry, mut drain) = compact().workers(2).parts(parts).ring(65_536).build()?;
        for round in 0..many(200) {
            let there = registry.clone();
            let ending = thread::spawn(move || {
                // One is made known before the registry's own locals, and one behind them.
                let keep = |last: &'static thread::LocalKey<RefCell<Last>>, count: u32| {
                    last.with_borrow_mut(|last| {
                        last.registry = Some(there.clone());
                        let inside = |_| span!(there, Level::Info, "a").entered();
                        last.inside.extend((0..count).map(inside));
                    });
                };
                keep(&BEFORE, 0);
                keep(&BEHIND, round % 3);
                keep(&BEFORE, round % 2);
            });
            ending.join().expect("no panic");
            drain.lines().for_each(drop);
        }
        assert_eq!((registry.settle(), registry.counts().threads), (Ok(()), 0));
        assert_empty(&registry);
    }
    Ok(())
}

#[test]
fn threads_may_outlive_the_registry_and_the_drain() -> Result<(), Error> {
    let at_work = Arc::new(Barrier::new(5));
    let (registry, drain) = compact().workers(3).ring(2).on_full(OnFull::Wait).build()?;
    let threads: Vec<_> = (0..4)
        .map(|number| {
            let (registry, at_work) = (registry.clone(), Arc::clone(&at_work));
            thread::spawn(move || {
                at_work.wait();
                let mut random = Random(number + 7);
                let mut kept: Vec<EnteredSpan> = Vec::new();
                for _ in 0..many(5_000) {
                    let a = span!(registry, Level::Info, "a", n = random.below(9));
                    kept.push(a.entered());
                    if random.below(3) == 0 {
                        drop(kept.swap_remove(random.below(kept.len() as u64) as usize));
                    }
                    kept.truncate(20);
                }
                // The registry goes before its spans.
                drop(registry);
                kept.len()
            })
        })
        .collect();
    drop(registry);
    at_work.wait();
    // Those that wait for a place go on.
    thread::sleep(Duration::from_millis(2));
    drop(drain);
    for thread in threads {
        assert!(thread.join().expect("no panic") > 0);
    }
    Ok(())
}

struct Nobody;

impl Wake for Nobody {
    fn wake(self: Arc<Nobody>) {}
}

fn polled<F: Future>(future: Pin<&mut F>) -> bool {
    let waker = Waker::from(Arc::new(Nobody));
    future.poll(&mut Context::from_waker(&waker)).is_ready()
}

#[test]
fn futures_may_move_panic_and_be_forgotten() -> Result<(), Error> {
    crate::threads::hush();
    let (registry, mut drain) = compact().workers(2).ring(4096).build()?;
    for round in 0..many(300) {
        let future = |name| pending::<()>().instrument(registry.span(&info(name), Parent::Root, &[]).expect("room"));
        let mut moved = Box::pin(future("moved"));
        assert!(!polled(moved.as_mut()));
        let there = thread::spawn(move || !polled(moved.as_mut()));
        assert!(there.join().expect("no panic"));
        let mut panicking = Box::pin(async { panic!("on purpose") }.instrument(span(&registry, "panicking")));
        for _ in 0..2 {
            // An async block that panicked panics again.
            assert!(catch_unwind(AssertUnwindSafe(|| polled(panicking.as_mut()))).is_err());
        }
        drop(panicking);
        let mut inner = Box::pin(future("inner").instrument(span(&registry, "outer")));
        assert!(!polled(inner.as_mut()));
        let open = if round % 50 == 0 {
            std::mem::forget(inner);
            2 * (round / 50 + 1)
        } else {
            drop(inner);
            2 * (round / 50 + 1)
        };
        drain.lines().for_each(drop);
        let counts = registry.counts();
        assert_eq!((counts.open, counts.held, counts.owed), (open, u64::from(open), 0));
        assert_eq!(registry.current_span(), Ok(None));
    }
    Ok(())
}

#[test]
fn two_registries_at_one_place_of_the_program_keep_apart() -> Result<(), Error> {
    let all = [1, 2].map(|parts| compact().workers(8).parts(parts).ring(65_536).build());
    let all: Vec<_> = all.into_iter().collect::<Result<_, _>>()?;
    let registries: Vec<Registry> = all.iter().map(|(registry, _)| registry.clone()).collect();
    thread::scope(|scope| {
        for seed in 1..=8 {
            let registries = &registries;
            scope.spawn(move || {
                let mut random = Random(seed << 9 | 7);
                let mut kept: [Vec<Span>; 2] = [Vec::new(), Vec::new()];
                for _ in 0..many(1_000) {
                    let which = random.below(2) as usize;
                    let parent = kept[which].last().and_then(Span::id);
                    let a = span!(registries[which], parent: parent, Level::Info, "a", of = which);
                    a.in_scope(|| event!(registries[which], Level::Info, "of {which}"));
                    // The other one takes nothing of it.
                    assert_eq!(a.id().map(|id| registries[1 - which].find(id)), Some(None));
                    kept[which].push(a);
                    kept[which].truncate(3);
                }
            });
        }
    });
    drop(registries);
    for (which, (registry, mut drain)) in all.into_iter().enumerate() {
        assert_eq!((registry.settle(), registry.lost().calls()), (Ok(()), 0));
        assert_empty(&registry);
        let lines = texts(&mut drain);
        let is_own = |line: &String| line.contains(&format!("of={which}")) || line.ends_with(&format!("of {which}"));
        let told = lines
            .iter()
            .filter(|line| line.starts_with("new") || line.starts_with("event"));
        assert!(told.clone().count() as u64 >= registry.counts().made && told.clone().all(is_own));
    }
    Ok(())
}

#[test]
fn what_is_dropped_while_nobody_reads_closes_in_the_order_of_the_drops() -> Result<(), Error> {
    let spans = many(100_000);
    let (registry, mut drain) = compact().slots(spans).ring(1).build()?;
    let mut all = Vec::new();
    for _ in 0..spans {
        all.push(registry.span(&info("a"), Parent::Root, &[])?);
        assert!(drain.line().is_some());
    }
    let mut random = Random(9);
    let mut order = Vec::new();
    registry.event(&info("m"), "m", &[])?;
    while !all.is_empty() {
        let a = all.swap_remove(random.below(all.len() as u64) as usize);
        order.push(a.id().expect("wanted").into_u64());
        drop(a);
    }
    assert_eq!(registry.counts().owed, spans as usize);
    let mut lines = drain.lines().map(|line| line.text);
    assert_eq!(lines.next().as_deref(), Some("event 0 w0 - INFO m"));
    for id in order {
        assert_eq!(lines.next(), Some(format!("close {id} w0 a")));
    }
    assert_eq!(lines.next(), None);
    drop(lines);
    assert_empty(&registry);
    Ok(())
}

/// A writer that tells when it is dropped, and calls the registry then.
struct Telling(Option<Registry>, Sender<&'static str>);

impl Write for Telling {
    fn write(&mut self, bytes: &[u8]) -> io::Result<usize> {
        Ok(bytes.len())
    }

    fn flush(&mut self) -> io::Result<()> {
        Ok(())
    }
}

impl Drop for Telling {
    fn drop(&mut self) {
        if let Some(registry) = &self.0 {
            (0..20).for_each(|_| event!(registry, Level::Info, "late"));
            let _ended = (registry.flush(), registry.shutdown());
        }
        let _heard = self.1.send("dropped");
    }
}

#[test]
fn a_writer_whose_guard_is_forgotten_ends_with_the_registry() -> Result<(), Box<dyn std::error::Error>> {
    let (sender, heard) = channel();
    let (registry, guard) = compact().spawn_writer(Telling(None, sender))?;
    std::mem::forget(guard);
    event!(registry, Level::Info, "m");
    drop(registry);
    assert_eq!(heard.recv_timeout(Duration::from_secs(60))?, "dropped");
    Ok(())
}

#[test]
fn a_writer_may_call_the_registry_while_it_is_dropped() -> Result<(), Box<dyn std::error::Error>> {
    for on_full in [OnFull::Wait, OnFull::Refuse, OnFull::DropOldest] {
        let (sender, heard) = channel();
        let (registry, drain) = compact().ring(2).on_full(on_full).build()?;
        let guard = drain.spawn(Telling(Some(registry.clone()), sender))?;
        event!(registry, Level::Info, "m");
        assert_eq!(guard.finish()?, 1);
        assert_eq!(heard.recv_timeout(Duration::from_secs(60))?, "dropped");
        assert_eq!(registry.lost().by(&Error::Unknown), 0);
    }
    Ok(())
}
