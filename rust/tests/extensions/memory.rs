//! That want of memory is an answer, which leaves all as it was, and that to let go takes none.
use crate::common::{assert_empty, compact, info};
use crate::{carry, is_there, Value};
use span_registry::{Error, Id, Parent, Registry};
use std::alloc::{GlobalAlloc, Layout, System};
use std::cell::Cell;
use std::ptr;
use std::sync::{Arc, Weak};

struct Refusing;

thread_local! {
    // How many allocations of this thread come before those that are refused.
    static BEFORE: Cell<u64> = const { Cell::new(u64::MAX) };
}

// SAFETY: each call is handed on as it is, or refused.
unsafe impl GlobalAlloc for Refusing {
    unsafe fn alloc(&self, layout: Layout) -> *mut u8 {
        let before = BEFORE.get();
        if before == 0 {
            return ptr::null_mut();
        }
        BEFORE.set(before - 1);
        // SAFETY: the caller's.
        unsafe { System.alloc(layout) }
    }

    unsafe fn dealloc(&self, at: *mut u8, layout: Layout) {
        // SAFETY: the caller's.
        unsafe { System.dealloc(at, layout) }
    }
}

#[global_allocator]
static REFUSING: Refusing = Refusing;

/// Runs it while this thread gets so many allocations of Rust's, and no more.
fn with_memory<T>(allocations: u64, run: impl FnOnce() -> T) -> T {
    BEFORE.set(allocations);
    let answer = run();
    BEFORE.set(u64::MAX);
    answer
}

/// Has the span carry one, which is refused as long as there is too little memory: how many allocations it takes.
fn allocations_of<T: Send + Sync + 'static>(registry: &Registry, id: Id, make: impl Fn() -> T) -> u64 {
    let (extensions, before) = (registry.extensions(id), registry.counts());
    for allocations in 0.. {
        let value = Arc::new(make());
        let seen = Arc::downgrade(&value);
        let put = with_memory(allocations, || extensions.insert(value));
        assert_eq!(registry.counts(), before);
        if put == Ok(true) {
            assert_eq!(seen.strong_count(), 1);
            return allocations;
        }
        assert_eq!((put, extensions.contains::<T>()), (Err(Error::OutOfMemory), Ok(false)));
        assert!(!is_there(&seen));
    }
    unreachable!()
}

#[test]
fn to_carry_may_be_refused_and_changes_nothing_then() -> Result<(), Error> {
    let (registry, mut drain) = compact().build()?;
    let mut refused = [0; 2];
    for number in 0..600 {
        let id = registry.new_span(&info("a"), Parent::Root, &[])?.expect("wanted");
        drain.lines().for_each(drop);
        let least = allocations_of(&registry, id, || Value);
        assert!((2..=3).contains(&least), "{least}");
        refused[0] += least;
        for number in [1_u8, 2] {
            let next = Arc::new(number);
            assert!(with_memory(0, || registry.extensions(id).replace(next)).is_ok());
        }
        refused[1] += allocations_of(&registry, id, || [number; 2]) + allocations_of(&registry, id, || [number; 3]);
        refused[1] += allocations_of(&registry, id, || [number; 4]);
        assert_eq!(registry.extensions(id).get(), Ok(Some(Arc::new(2_u8))));
        // Slots are used again, and others are new.
        assert!(number % 2 == 0 || registry.try_close(id) == Ok(true));
        drain.lines().for_each(drop);
    }
    assert!(refused[0] > 1200 && refused[1] > 0, "{refused:?}");
    Ok(())
}

/// A chain of spans that carry something, which closes with the last one.
fn chain(registry: &Registry, mut read: impl FnMut(), length: usize) -> Result<(Vec<Id>, Vec<Weak<Value>>), Error> {
    let (mut ids, mut seen): (Vec<Id>, Vec<Weak<Value>>) = (Vec::new(), Vec::new());
    for _ in 0..length {
        let parent = Parent::from(ids.last().copied());
        let id = registry.new_span(&info("a"), parent, &[])?.expect("wanted");
        read();
        seen.push(carry(registry.extensions(id)));
        ids.push(id);
    }
    for &id in &ids[..length - 1] {
        assert_eq!(registry.try_close(id), Ok(false));
        read();
    }
    Ok((ids, seen))
}

#[test]
fn to_let_go_takes_no_memory() -> Result<(), Error> {
    for parts in [1, 2] {
        for length in [1, 2, 32, 33, 700] {
            let (registry, mut drain) = compact().parts(parts).build()?;
            let (ids, seen) = chain(&registry, || drain.lines().for_each(drop), length)?;
            let extensions = registry.extensions(ids[0]);
            assert!(with_memory(0, || extensions.get::<Value>())?.is_some());
            let first = with_memory(0, || extensions.remove::<Value>())?;
            assert!(first.is_some() && with_memory(0, || extensions.contains::<Value>()) == Ok(false));
            drop(first);
            assert_eq!(seen.iter().filter(|seen| is_there(seen)).count(), length - 1);
            let closed = with_memory(0, || registry.try_close(ids[length - 1]));
            assert_eq!((closed, seen.iter().any(is_there)), (Ok(true), false));
            assert_empty(&registry);
        }
    }
    Ok(())
}
