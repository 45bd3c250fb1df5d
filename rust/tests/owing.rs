//! That to owe takes no memory, since room for it was made before; and that no more is owed than is held.
mod common;

use common::{assert_empty, compact, info, span, Ids};
use span_registry::{Error, Id, Parent, Registry, Span};
use std::alloc::{GlobalAlloc, Layout, System};
use std::cell::Cell;
use std::ptr;

struct Counting;

thread_local! {
    static ALLOCATIONS: Cell<u64> = const { Cell::new(0) };
    static IS_REFUSED: Cell<bool> = const { Cell::new(false) };
}

// SAFETY: each call is handed on as it is, or refused.
unsafe impl GlobalAlloc for Counting {
    unsafe fn alloc(&self, layout: Layout) -> *mut u8 {
        ALLOCATIONS.set(ALLOCATIONS.get() + 1);
        if IS_REFUSED.get() {
            return ptr::null_mut();
        }
        // SAFETY: the caller's.
        unsafe { System.alloc(layout) }
    }

    unsafe fn dealloc(&self, at: *mut u8, layout: Layout) {
        // SAFETY: the caller's.
        unsafe { System.dealloc(at, layout) }
    }
}

#[global_allocator]
static COUNTING: Counting = Counting;

/// Runs it while this thread is refused all memory of Rust's; how often it asked for some.
fn without_memory(run: impl FnOnce()) -> u64 {
    let before = ALLOCATIONS.get();
    IS_REFUSED.set(true);
    run();
    IS_REFUSED.set(false);
    ALLOCATIONS.get() - before
}

const SPANS: usize = 500;

#[test]
fn to_owe_takes_no_memory() -> Result<(), Error> {
    let (registry, mut drain) = compact().ring(1).build()?;
    let mut spans: Vec<Span> = Vec::new();
    let mut guards = Vec::new();
    for _ in 0..SPANS {
        spans.push(span(&registry, "a"));
        drain.lines().for_each(drop);
    }
    for span in &spans {
        drain.lines().for_each(drop);
        guards.push(span.try_enter()?);
    }
    // The last enter fills the ring.
    assert_eq!(without_memory(|| drop(guards)), 0);
    assert_eq!(without_memory(|| drop(spans)), 0);
    assert_eq!(registry.counts().owed, 2 * SPANS);
    drain.lines().for_each(drop);
    assert_empty(&registry);
    Ok(())
}

/// Spans that the thread is inside of, each with two handles by its id.
fn by_ids(registry: &Registry, mut read: impl FnMut()) -> Result<Vec<Id>, Error> {
    let mut ids = Vec::new();
    for _ in 0..SPANS {
        let id = registry.new_span(&info("a"), Parent::Root, &[])?.expect("wanted");
        read();
        registry.clone_span(id)?;
        read();
        ids.push(id);
    }
    for &id in &ids {
        read();
        registry.enter(id)?;
    }
    Ok(ids)
}

#[test]
fn to_owe_by_ids_takes_no_memory_and_no_more_than_is_held() -> Result<(), Error> {
    let (registry, mut drain) = compact().ring(1).build()?;
    let ids = by_ids(&registry, || drain.lines().for_each(drop))?;
    let mut accepted = [0; 2];
    let asked = without_memory(|| {
        for &id in ids.iter().cycle().take(100 * SPANS) {
            accepted[0] += usize::from(registry.close_or_owe(id).is_ok());
            accepted[1] += usize::from(registry.exit_or_owe(id).is_ok());
        }
    });
    assert_eq!((accepted, asked), ([2 * SPANS, SPANS], 0));
    assert_eq!(registry.counts().owed, 3 * SPANS);
    assert_eq!(registry.close_or_owe(ids[0]), Err(Error::Unknown));
    assert_eq!(registry.exit_or_owe(ids[0]), Err(Error::NotEntered));
    drain.lines().for_each(drop);
    assert_empty(&registry);
    Ok(())
}

#[test]
fn a_stranger_who_owes_too_much_costs_nobody_a_handle_or_an_entry() -> Result<(), Error> {
    let (registry, mut drain) = compact().ring(4).build()?;
    let ids = Ids(registry);
    let held = span(&ids.0, "held");
    let inside = held.try_enter()?;
    ids.make("a")?;
    ids.make("b")?;
    // The ring is full. Neither is the thread inside of these, nor have they more than one handle each.
    let refused = |answer: Result<(), Error>| usize::from(answer.is_err());
    let numbers = [2, 3, 4, 2, 3, 2];
    let too_many: usize = numbers
        .into_iter()
        .map(|number| refused(ids.0.exit_or_owe(ids.id(number))) + refused(ids.0.close_or_owe(ids.id(number))))
        .sum();
    assert_eq!((too_many, ids.0.counts().owed), (10, 2));
    drop(inside);
    drop(held);
    assert_eq!(ids.0.counts().owed, 4);
    drain.lines().for_each(drop);
    assert_empty(&ids.0);
    Ok(())
}

#[test]
fn want_of_memory_for_what_may_be_owed_is_an_answer() -> Result<(), Error> {
    const CALLS: usize = 20_000;
    let (registry, mut drain) = compact().ring(65_536).slots(65_536).build()?;
    let id = registry.new_span(&info("a"), Parent::Root, &[])?.expect("wanted");
    // As long as there is room, calls are accepted; then each is refused, and nothing has changed.
    let mut answers = [const { Vec::new() }; 3];
    answers.iter_mut().for_each(|answers| answers.reserve(CALLS));
    without_memory(|| {
        for _ in 0..CALLS {
            answers[0].push(registry.enter(id).map(drop));
            answers[1].push(registry.clone_span(id));
            answers[2].push(registry.new_span_at_root());
        }
    });
    for answers in answers {
        assert_eq!(answers.last(), Some(&Err(Error::OutOfMemory)));
        assert!(answers
            .iter()
            .all(|answer| matches!(answer, Ok(()) | Err(Error::OutOfMemory))));
    }
    drain.lines().for_each(drop);
    let found = registry.find(id).expect("open");
    let counts = registry.counts();
    assert_eq!(counts.owed, 0);
    assert_eq!(u64::from(found.handles + found.entries + counts.open - 1), counts.held);
    registry.clone_span(id)?;
    registry.enter(id).map(drop)
}

/// A new span without fields.
trait AtRoot {
    fn new_span_at_root(&self) -> Result<(), Error>;
}

impl AtRoot for Registry {
    fn new_span_at_root(&self) -> Result<(), Error> {
        self.new_span(&info("b"), Parent::Root, &[]).map(drop)
    }
}
