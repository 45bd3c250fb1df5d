//! How many allocations a thread takes for a round once the memory of slots and buffers is there, this crate's own and
//! the library's, and what is freed while lines are read.
//!
//! The library takes its memory by three functions of the toolchain's shim, for which this program has its own.
mod common;

use common::info;
use span_registry::{
    event, record, span, Drain, Error, FmtSpan, Layer, Level, Meta, Note, Parent, Registry, RegistryBuilder,
};
use std::alloc::{GlobalAlloc, Layout, System};
use std::cell::Cell;
use std::ffi::c_void;
use std::io;
use std::sync::{mpsc, Barrier};
use std::thread;

thread_local! {
    // It takes no memory, and is there to the thread's end.
    static TAKEN: Cell<u64> = const { Cell::new(0) };
    // Of the library's blocks alone, and of all.
    static FREED: Cell<u64> = const { Cell::new(0) };
    static ALL_FREED: Cell<u64> = const { Cell::new(0) };
}

fn take() {
    TAKEN.set(TAKEN.get() + 1);
}

fn give_back() {
    ALL_FREED.set(ALL_FREED.get() + 1);
}

/// How many blocks the thread took and freed so far.
fn so_far() -> (u64, u64) {
    (TAKEN.get(), ALL_FREED.get())
}

fn since((taken, freed): (u64, u64)) -> (u64, u64) {
    (TAKEN.get() - taken, ALL_FREED.get() - freed)
}

struct Counting;

#[global_allocator]
static ALLOCATOR: Counting = Counting;

// SAFETY: it is the system's.
unsafe impl GlobalAlloc for Counting {
    unsafe fn alloc(&self, layout: Layout) -> *mut u8 {
        take();
        // SAFETY: the caller's.
        unsafe { System.alloc(layout) }
    }

    unsafe fn realloc(&self, at: *mut u8, layout: Layout, size: usize) -> *mut u8 {
        take();
        give_back();
        // SAFETY: the caller's.
        unsafe { System.realloc(at, layout, size) }
    }

    unsafe fn dealloc(&self, at: *mut u8, layout: Layout) {
        give_back();
        // SAFETY: the caller's.
        unsafe { System.dealloc(at, layout) }
    }
}

#[repr(C)]
pub struct Block {
    is_there: bool,
    at: *mut c_void,
}

extern "C" {
    fn malloc(size: usize) -> *mut c_void;
    fn realloc(at: *mut c_void, size: usize) -> *mut c_void;
    fn free(at: *mut c_void);
}

fn block(at: *mut c_void) -> Block {
    take();
    Block {
        is_there: !at.is_null(),
        at,
    }
}

/// A block of `size` bytes, aligned as `align` says, which is below 17.
#[no_mangle]
pub extern "C" fn rattle_alloc(size: usize, align: usize) -> Block {
    // SAFETY: any size may be asked for.
    block(unsafe { malloc(size.max(align)) })
}

/// # Safety
/// The block came from these functions and wasn't given back.
#[no_mangle]
pub unsafe extern "C" fn rattle_realloc(at: *mut c_void, _old: usize, size: usize, align: usize) -> Block {
    give_back();
    // SAFETY: the caller's.
    block(unsafe { realloc(at, size.max(align)) })
}

/// # Safety
/// The block came from these functions and wasn't given back.
#[no_mangle]
pub unsafe extern "C" fn rattle_dealloc(at: *mut c_void) {
    FREED.set(FREED.get() + 1);
    give_back();
    // SAFETY: the caller's.
    unsafe { free(at) }
}

const ROUNDS: u64 = 1000;

/// Allocations a round, with the reading, once as many rounds were made before.
fn of_rounds(
    registry: &Registry,
    drain: &mut Drain,
    round: impl Fn(&Registry) -> Result<(), Error>,
) -> Result<u64, Error> {
    let mut before = 0;
    for count in 0..2 * ROUNDS {
        if count == ROUNDS {
            before = TAKEN.get();
        }
        round(registry)?;
        assert_eq!(drain.line(), None);
    }
    Ok((TAKEN.get() - before) / ROUNDS)
}

#[test]
fn a_round_takes_few_allocations() -> Result<(), Error> {
    const FIELDS: &[(&str, &str)] = &[("k", "value")];
    let (registry, mut drain) = Registry::builder().build()?;
    let site = registry.callsite(&info("request"))?;
    let round = |registry: &Registry, made: Option<span_registry::Id>| {
        let id = made.expect("there is no layer");
        registry.enter(id)?;
        registry.exit(id)?;
        registry.try_close(id).map(drop)
    };
    let by_ids = of_rounds(&registry, &mut drain, |registry| {
        round(registry, registry.new_span(&info("request"), Parent::Current, FIELDS)?)
    })?;
    let at_callsite = of_rounds(&registry, &mut drain, |registry| {
        round(registry, registry.new_span_at(&site, Parent::Current, FIELDS)?)
    })?;
    let as_span = of_rounds(&registry, &mut drain, |registry| {
        registry.span_at(&site, Parent::Current, FIELDS)?.try_in_scope(|| ())
    })?;
    assert_eq!((by_ids, at_callsite, as_span), (0, 0, 1));
    Ok(())
}

#[test]
fn calls_of_which_no_layer_is_told_take_none() -> Result<(), Error> {
    let layer = Layer::compact().with_span_events(FmtSpan::NEW | FmtSpan::CLOSE);
    let (registry, mut drain) = Registry::builder().ring(65_536).layer(layer).build()?;
    let span = registry.span(&info("request"), Parent::Root, &[])?;
    let id = span.id().expect("the layer wants it");
    let round = || -> Result<(), Error> {
        registry.enter(id)?;
        registry.exit(id)?;
        drop(span.enter());
        span.try_in_scope(|| ())
    };
    // Nobody reads, so nothing comes back that a batch might take.
    round()?;
    let before = TAKEN.get();
    (0..ROUNDS).try_for_each(|_| round())?;
    assert_eq!(TAKEN.get() - before, 0);
    // Each call has its place in the ring.
    assert_eq!(drain.lines().count(), 1);
    assert_eq!(drain.counts().batches, 1 + 6 * (1 + ROUNDS));
    Ok(())
}

#[test]
fn what_calls_took_is_not_freed_by_the_reader() -> Result<(), Error> {
    const FIELDS: &[(&str, &str)] = &[("k", "value")];
    let (registry, drain) = Registry::builder().layer(Layer::compact()).build()?;
    let (told, tells) = mpsc::sync_channel(0);
    let (was_read, reads) = mpsc::sync_channel(0);
    let reader = thread::spawn(move || {
        let mut drain = drain;
        let mut before = 0;
        for count in 0..2 * ROUNDS {
            if count == ROUNDS {
                before = FREED.get();
            }
            tells.recv().expect("a round");
            assert!(drain.line().is_some());
            was_read.send(()).expect("a round");
        }
        // The drain outlives the counting: to drop it is to free what it has.
        (FREED.get() - before, drain)
    });
    for _ in 0..2 * ROUNDS {
        registry.event(&info("request"), "told", FIELDS)?;
        told.send(()).expect("a reader");
        reads.recv().expect("a reader");
    }
    let (freed, _drain) = reader.join().expect("a reader");
    assert_eq!(freed, 0);
    Ok(())
}

/// Spans, events and records with fields, by macros.
fn by_macros(registry: &Registry, number: u64) -> Result<(), Error> {
    let outer = span!(registry, Level::Info, "request", number, user = "Ada", ratio = 0.5);
    let inner =
        span!(registry, target: "app::db", parent: &outer, Level::Debug, "GET /users", is_cached = number % 2 == 0);
    let _inside = inner.enter();
    event!(registry, Level::Info, number, "read {number} rows");
    record!(inner, status = 200, text = "t");
    record!(outer, number);
    Ok(())
}

/// The same by methods: of what has a target and a name of its own, and at callsites.
fn by_methods(registry: &Registry, _number: u64) -> Result<(), Error> {
    const FIELDS: &[(&str, &str)] = &[("k", "value"), ("l", "another value")];
    let outer = registry.span(&info("outer"), Parent::Root, FIELDS)?;
    let inner = registry.span(&info("inner"), Parent::from(&outer), FIELDS)?;
    let _inside = inner.try_enter()?;
    registry.event(&info("event"), "told", FIELDS)?;
    inner.try_record(FIELDS)
}

/// What the reader does with what is at hand.
type Reading = fn(&mut Drain, &mut Note);

fn read_notes(drain: &mut Drain, note: &mut Note) {
    while drain.note_into(note) {}
}

fn write_lines(drain: &mut Drain, _note: &mut Note) {
    drain.write_to(&mut io::sink()).expect("it is never refused");
}

/// How many blocks who calls and who reads took and freed in turns of rounds, once as many were before. In each turn the
/// reader reads what the rounds told.
fn of_both(
    builder: RegistryBuilder,
    round: impl Fn(&Registry, u64) -> Result<(), Error>,
    read: Reading,
) -> Result<[(u64, u64); 2], Error> {
    const TURNS: u64 = 200;
    const ROUNDS_OF_A_TURN: u64 = 5;
    let (registry, mut drain) = builder.ring(1024).build()?;
    let gate = Barrier::new(2);
    thread::scope(|scope| {
        let reader = scope.spawn(|| {
            let (mut note, mut before) = (Note::default(), so_far());
            for turn in 0..2 * TURNS {
                if turn == TURNS {
                    before = so_far();
                }
                gate.wait();
                read(&mut drain, &mut note);
                gate.wait();
            }
            since(before)
        });
        let (mut done, mut before) = (Ok(()), so_far());
        for turn in 0..2 * TURNS {
            if turn == TURNS {
                before = so_far();
            }
            // The reader waits for each turn, whatever this one comes to.
            done = done.and_then(|()| (0..ROUNDS_OF_A_TURN).try_for_each(|_| round(&registry, turn)));
            gate.wait();
            gate.wait();
        }
        let of_calls = since(before);
        let of_reader = reader.join().expect("a reader");
        done.map(|()| [of_calls, of_reader])
    })
}

#[test]
fn with_trees_no_block_goes_from_who_calls_to_who_reads() -> Result<(), Error> {
    let trees = || Registry::builder().layer(Layer::tree());
    // Of what this one isn't told the close, something is kept until its slot has another span.
    let of_new = || Registry::builder().layer(Layer::tree().with_span_events(FmtSpan::NEW));
    for round in [by_macros, by_methods] {
        for read in [read_notes as Reading, write_lines] {
            for builder in [trees(), of_new(), trees().layer(Layer::compact()).layer(Layer::tree())] {
                let [(taken, freed), of_reader] = of_both(builder, round, read)?;
                assert_eq!((of_reader, freed), ((0, 0), taken));
            }
        }
    }
    Ok(())
}

/// How many blocks calls took and freed that a layer isn't told of: a span that it doesn't want, and an event for which
/// the ring has no place.
fn of_what_is_not_told(layer: Layer) -> Result<(u64, u64), Error> {
    let layer = layer.with_max_level(Level::Warn);
    let (registry, _drain) = Registry::builder().ring(1).layer(layer).build()?;
    let event = || registry.event(&Meta::event(Level::Warn, "app"), "told", &[]);
    let round = || {
        assert_eq!(registry.new_span(&info("request"), Parent::Root, &[]), Ok(None));
        assert_eq!(event(), Err(Error::Backlog));
    };
    event()?;
    round();
    let before = so_far();
    (0..ROUNDS).for_each(|_| round());
    Ok(since(before))
}

#[test]
fn with_trees_what_is_not_told_takes_no_block_more() -> Result<(), Error> {
    assert_eq!(
        of_what_is_not_told(Layer::tree())?,
        of_what_is_not_told(Layer::compact())?
    );
    Ok(())
}
