//! Values whose drop calls the registry, makes spans that carry such values too, closes others, and panics.
use crate::common::{assert_empty, compact, info};
use crate::threads::hush;
use crate::{many, Random};
use span_registry::{event, span, Error, Level, OnFull, Parent, Registry, Span};
use std::cell::RefCell;
use std::io;
use std::panic::{catch_unwind, AssertUnwindSafe};
use std::sync::atomic::{AtomicU64, Ordering};
use std::sync::{Arc, Mutex};
use std::thread;
use std::time::Duration;

/// How many there are, and what threads hand to one another.
#[derive(Default)]
struct Shelf {
    alive: AtomicU64,
    spans: Mutex<Vec<Span>>,
}

struct Hostile {
    registry: Registry,
    shelf: Arc<Shelf>,
    // How often a span that its drop makes carries one more.
    depth: u64,
    kept: Option<Span>,
}

/// Many a span carries one, and some two.
fn carry(span: &Span, registry: &Registry, shelf: &Arc<Shelf>, depth: u64, kept: Option<Span>) {
    shelf.alive.fetch_add(1, Ordering::Relaxed);
    let value = Hostile {
        registry: registry.clone(),
        shelf: Arc::clone(shelf),
        depth,
        kept,
    };
    let _one_of_each = span.extensions().insert(Arc::new(value));
    let _another = span.extensions().insert(Arc::new(depth));
}

impl Drop for Hostile {
    fn drop(&mut self) {
        self.shelf.alive.fetch_sub(1, Ordering::Relaxed);
        event!(self.registry, Level::Info, "end of {}", self.depth);
        let next = span!(self.registry, Level::Info, "next", depth = self.depth);
        if self.depth > 0 {
            carry(&next, &self.registry, &self.shelf, self.depth - 1, None);
        }
        next.in_scope(|| drop(self.kept.take()));
        let of_next = next.id().map(|id| self.registry.open_span(id));
        drop((self.registry.counts(), self.registry.current_span(), of_next));
        if self.depth % 2 == 1 {
            panic!("on purpose");
        }
    }
}

thread_local! {
    static KEPT: RefCell<Vec<Span>> = const { RefCell::new(Vec::new()) };
}

fn step(registry: &Registry, shelf: &Arc<Shelf>, random: &mut Random) {
    let a = span!(registry, Level::Info, "a");
    let below = span!(registry, parent: &a, Level::Info, "b");
    carry(&a, registry, shelf, random.below(3), None);
    carry(
        &below,
        registry,
        shelf,
        random.below(2),
        a.try_clone().ok().filter(|_| random.below(3) == 0),
    );
    match random.below(8) {
        0 => std::mem::forget(below.enter()),
        1 => KEPT.with_borrow_mut(|kept| kept.push(below)),
        2 => shelf.spans.lock().expect("no panic here").extend([a, below]),
        3 => {
            let taken = shelf.spans.lock().expect("no panic here").pop();
            taken.into_iter().for_each(drop);
        }
        4 => {
            let panics = || below.in_scope(|| panic!("on purpose"));
            assert!(catch_unwind(AssertUnwindSafe(panics)).is_err());
        }
        5 => {
            // By an id that may be anybody's.
            let id = registry.id(random.below(40) + 1).expect("not 0");
            let extensions = registry.extensions(id);
            drop((
                extensions.get::<Hostile>(),
                extensions.replace(Arc::new(7_u64)),
                extensions.remove::<Hostile>(),
            ));
        }
        6 => drop(a.extensions().replace(Arc::new(random.below(9)))),
        _ => drop((a.entered(), below)),
    }
}

fn run(registry: &Registry, shelf: &Arc<Shelf>, steps: u32) {
    thread::scope(|scope| {
        for seed in 1..=8 {
            scope.spawn(move || {
                let mut random = Random(seed << 20 | 7);
                for _ in 0..steps {
                    // Where the thread itself is the last to have a value, that panics here.
                    let _may_panic = catch_unwind(AssertUnwindSafe(|| step(registry, shelf, &mut random)));
                }
            });
        }
    });
    // Some of these are dropped by the drops of others.
    loop {
        let taken = shelf.spans.lock().expect("no panic here").pop();
        match taken {
            Some(taken) => drop(taken),
            None => return,
        }
    }
}

/// Threads that have ended, and whoever reads, may be about to drop the last ones.
fn wait_until_none_is_there(registry: &Registry, shelf: &Shelf) {
    for _ in 0..24_000 {
        let counts = registry.counts();
        if (counts.open, counts.owed, shelf.alive.load(Ordering::Relaxed)) == (0, 0, 0) {
            break;
        }
        thread::sleep(Duration::from_millis(5));
    }
    assert_empty(registry);
    assert_eq!(shelf.alive.load(Ordering::Relaxed), 0);
}

#[test]
fn eight_threads_whose_values_are_hostile_leave_nothing() {
    hush();
    for (parts, ring, on_full, steps) in [
        (1, 16, OnFull::DropOldest, 400),
        (3, 4, OnFull::DropOldest, 400),
        // Each call waits for the reader.
        (1, 1, OnFull::Wait, 20),
        (2, 64, OnFull::Refuse, 400),
    ] {
        let builder = compact()
            .parts(parts)
            .workers(3)
            .slots(10_000)
            .ring(ring)
            .on_full(on_full);
        let (registry, mut drain) = builder.build().expect("it fits");
        let reading = thread::spawn(move || drain.run(&mut io::sink()));
        let shelf: Arc<Shelf> = Arc::default();
        run(&registry, &shelf, many(steps));
        wait_until_none_is_there(&registry, &shelf);
        drop((registry, shelf));
        reading.join().expect("no panic").expect("a sink takes all");
    }
}

#[test]
fn a_long_chain_lets_go_of_all_at_once() -> Result<(), Error> {
    hush();
    let spans = many(40_000);
    let (registry, mut drain) = Registry::builder().slots(2 * spans).build()?;
    let shelf: Arc<Shelf> = Arc::default();
    let mut chain = vec![Span::none()];
    for _ in 0..spans {
        let last = &chain[chain.len() - 1];
        chain.push(registry.span(&info("a"), Parent::from(last), &[])?);
        carry(&chain[chain.len() - 1], &registry, &shelf, 0, None);
        assert_eq!(drain.line(), None);
    }
    assert_eq!(shelf.alive.load(Ordering::Relaxed), u64::from(spans));
    let reading = thread::spawn(move || drain.run(&mut io::sink()));
    let last = chain.pop();
    drop(chain);
    drop(last);
    wait_until_none_is_there(&registry, &shelf);
    drop((registry, shelf));
    reading.join().expect("no panic").expect("a sink takes all");
    Ok(())
}
