//! Eight threads that panic, forget, hand over, outlive and give back too often, while drains come and go.
use crate::{many, Random};
use span_registry::{
    event, span, Counts, Drain, Entered, Error, Layer, Level, OnFull, Registry, RegistryBuilder, Span,
};
use std::cell::RefCell;
use std::io;
use std::panic::{catch_unwind, AssertUnwindSafe};
use std::sync::Mutex;
use std::thread;
use std::time::Duration;

const THREADS: u64 = 8;

thread_local! {
    // Dropped when the thread ends, before or after its number went back.
    static KEPT: RefCell<Vec<Span>> = const { RefCell::new(Vec::new()) };
}

/// The panics that are meant say nothing.
pub fn hush() {
    std::panic::set_hook(Box::new(|panic| {
        if panic.payload().downcast_ref::<&str>() != Some(&"on purpose") {
            eprintln!("thread {:?} {panic}", thread::current().name());
        }
    }));
}

/// What threads hand to one another.
type Shelf = Mutex<Vec<Span>>;

/// All that a step may do.
const ALL: [u64; 11] = [0, 1, 2, 3, 4, 5, 6, 7, 8, 9, 10];
/// The steps that keep and forget nothing, enter no span twice, and give back only what is theirs.
const HONEST: [u64; 6] = [2, 3, 4, 7, 8, 9];

fn step(registry: &Registry, shelf: &Shelf, random: &mut Random, steps: &[u64]) {
    let a = span!(registry, Level::Info, "a", thread = random.below(9));
    match steps[random.below(steps.len() as u64) as usize] {
        0 => std::mem::forget(a.enter()),
        1 => KEPT.with_borrow_mut(|kept| kept.push(a)),
        2 => shelf.lock().expect("no panic here").push(a),
        3 => drop(shelf.lock().expect("no panic here").pop()),
        4 => {
            let panics = || a.in_scope(|| panic!("on purpose"));
            assert!(catch_unwind(AssertUnwindSafe(panics)).is_err());
        }
        5 => {
            // Guards that are dropped in the wrong order.
            let b = span!(registry, parent: &a, Level::Info, "b");
            let guards: [Entered<'_>; 3] = [a.enter(), b.enter(), a.enter()];
            let [first, second, third] = guards;
            drop((second, first, third));
        }
        6 => {
            // Somebody who gives back by ids what others hold.
            let part = a.id().map_or(0, |id| id.part());
            let id = registry
                .id(u64::from(part) << 57 | (random.below(40) + 1))
                .expect("not 0");
            let _may_be_refused = (registry.exit(id), registry.exit_or_owe(id));
        }
        7 => drop((registry.worker(), registry.current_span(), registry.counts())),
        8 => drop(a.try_clone().map(|own| own.try_close())),
        10 => drop((registry.open_spans(), a.id().map(|id| registry.why_open(id)))),
        _ => event!(registry, Level::Info, { span = format!("{a:?}") }, "m"),
    }
}

fn run(registry: &Registry, count: u32, steps: &[u64]) {
    let shelf = Shelf::default();
    thread::scope(|scope| {
        for seed in 1..=THREADS {
            let (registry, shelf) = (registry, &shelf);
            scope.spawn(move || {
                let mut random = Random(seed << 20 | 7);
                (0..count).for_each(|_| step(registry, shelf, &mut random, steps));
            });
        }
    });
    drop(shelf);
}

/// A scope waits for its threads' closures, and not for their thread locals.
fn wait_until(registry: &Registry, is_so: impl Fn(Counts) -> bool) {
    for _ in 0..24_000 {
        if is_so(registry.counts()) {
            return;
        }
        thread::sleep(Duration::from_millis(5));
    }
}

fn assert_nothing_stays(registry: &Registry) {
    let counts = registry.counts();
    assert_eq!((counts.open, counts.held, counts.owed), (0, 0, 0), "{counts:?}");
    assert_eq!(counts.made, counts.closed, "{counts:?}");
    // This thread may have dropped what others left on the shelf.
    assert!(counts.threads <= 1, "{counts:?}");
}

fn of_threads(workers: u32, ring: u32, on_full: OnFull) -> RegistryBuilder {
    let builder = Registry::builder().workers(workers).slots(100_000).ring(ring);
    builder.on_full(on_full).layer(Layer::compact())
}

fn reading(mut drain: Drain) -> thread::JoinHandle<io::Result<u64>> {
    thread::spawn(move || drain.run(&mut io::sink()))
}

#[test]
fn eight_hostile_threads_leave_nothing_open() {
    hush();
    for (parts, workers, ring, on_full) in [
        (1, 2, 16, OnFull::Refuse),
        (1, 8, 4096, OnFull::DropOldest),
        (1, 1, 1, OnFull::Wait),
        (1, 3, 2, OnFull::DropOldest),
        (3, 2, 16, OnFull::Refuse),
        (5, 1, 1, OnFull::Wait),
        (2, 3, 2, OnFull::DropOldest),
    ] {
        let builder = of_threads(workers, ring, on_full).parts(parts);
        let (registry, drain) = builder.build().expect("it fits");
        let reading = reading(drain);
        run(&registry, many(2000), &ALL);
        wait_until(&registry, |now| now.threads <= 1 && (now.open, now.owed) == (0, 0));
        assert_nothing_stays(&registry);
        drop(registry);
        reading.join().expect("no panic").expect("a sink takes all");
    }
}

#[test]
fn a_drain_that_is_dropped_in_the_middle_holds_nobody_up() {
    hush();
    for (on_full, parts) in [
        (OnFull::Refuse, 1),
        (OnFull::Wait, 1),
        (OnFull::DropOldest, 1),
        (OnFull::Refuse, 4),
        (OnFull::DropOldest, 3),
    ] {
        let builder = of_threads(4, 8, on_full).parts(parts);
        let (registry, mut drain) = builder.build().expect("it fits");
        thread::scope(|scope| {
            scope.spawn(|| run(&registry, many(1000), &HONEST));
            scope.spawn(|| {
                (0..many(3000)).for_each(|_| drop(drain.line()));
                drop(drain);
            });
        });
        // Nobody makes place any longer, and no call needs that.
        let refused = registry.lost().by(&Error::Backlog);
        run(&registry, many(1000), &HONEST);
        assert_eq!(registry.lost().by(&Error::Backlog), refused);
        wait_until(&registry, |now| now.threads <= 1 && (now.open, now.owed) == (0, 0));
        assert_nothing_stays(&registry);
        assert!(registry.lost().lines() > 0);
    }
}

#[test]
fn registries_that_come_and_go_in_threads_keep_apart() {
    thread::scope(|scope| {
        for _ in 0..THREADS {
            scope.spawn(|| {
                for _ in 0..many(300) {
                    let (registry, mut drain) = Registry::builder().layer(Layer::compact()).build().expect("it fits");
                    let a = span!(registry, Level::Info, "a");
                    a.in_scope(|| event!(registry, Level::Info, "m"));
                    KEPT.with_borrow_mut(|kept| kept.push(a));
                    let texts: Vec<String> = drain.lines().map(|line| line.text).collect();
                    let wanted = ["new 1 w0 a", "enter 1 w0 a", "event 1 w0 a INFO m", "exit 1 w0 a"];
                    assert_eq!(texts, wanted);
                }
            });
        }
    });
}
