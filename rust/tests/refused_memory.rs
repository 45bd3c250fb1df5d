//! That a registry whose memory is refused, at each place in turn, refuses the call and is as it was; and that drops
//! then owe.
//!
//! The library takes its memory by three functions of the toolchain's shim. This program has its own in their place,
//! which refuse one allocation of all of the process: its tests run one at a time.
mod common;

use common::{as_compact, assert_empty, compact, id, info, texts, Ids};
use span_registry::{Drain, Error, Layer, Parent, Registry, RegistryBuilder};
use std::collections::HashSet;
use std::ffi::c_void;
use std::io;
use std::sync::atomic::{AtomicU64, Ordering};
use std::sync::{Mutex, PoisonError};
use std::thread;

/// How many allocations come before the one that is refused.
static BEFORE: AtomicU64 = AtomicU64::new(u64::MAX);
static ALONE: Mutex<()> = Mutex::new(());

#[repr(C)]
pub struct Block {
    is_there: bool,
    at: *mut c_void,
}

extern "C" {
    fn malloc(size: usize) -> *mut c_void;
    fn realloc(at: *mut c_void, size: usize) -> *mut c_void;
    fn free(at: *mut c_void);
}

fn is_refused() -> bool {
    BEFORE.fetch_update(Ordering::SeqCst, Ordering::SeqCst, |before| {
        Some(before.wrapping_sub(1))
    }) == Ok(0)
}

fn block(at: *mut c_void) -> Block {
    Block {
        is_there: !at.is_null(),
        at,
    }
}

const REFUSED: Block = Block {
    is_there: false,
    at: std::ptr::null_mut(),
};

/// A block of `size` bytes, aligned as `align` says, which is below 17.
#[no_mangle]
pub extern "C" fn rattle_alloc(size: usize, align: usize) -> Block {
    if is_refused() {
        return REFUSED;
    }
    // SAFETY: any size may be asked for.
    block(unsafe { malloc(if size == 0 { align } else { size }) })
}

/// # Safety
/// The block came from these functions and wasn't given back.
#[no_mangle]
pub unsafe extern "C" fn rattle_realloc(at: *mut c_void, _old: usize, size: usize, align: usize) -> Block {
    if is_refused() {
        return REFUSED;
    }
    // SAFETY: the caller's.
    block(unsafe { realloc(at, if size == 0 { align } else { size }) })
}

/// # Safety
/// The block came from these functions and wasn't given back.
#[no_mangle]
pub unsafe extern "C" fn rattle_dealloc(at: *mut c_void) {
    // SAFETY: the caller's.
    unsafe { free(at) }
}

/// Whether the refusal came.
fn is_spent() -> bool {
    BEFORE.load(Ordering::SeqCst) > u64::MAX / 2
}

/// Calls that are made again where memory was refused, once nothing has changed.
struct Calls {
    registry: Registry,
    refused: u32,
    owed: u32,
}

impl Calls {
    fn make<T>(&mut self, call: impl Fn(&Registry) -> Result<T, Error>) -> T {
        let before = self.registry.counts();
        match call(&self.registry) {
            Err(Error::OutOfMemory) => {
                self.refused += 1;
                assert_eq!(self.registry.counts(), before);
                call(&self.registry).expect("memory is there again")
            }
            result => result.expect("not refused"),
        }
    }

    fn drop<T>(&mut self, dropped: T) {
        let was_spent = is_spent();
        drop(dropped);
        self.owed += u32::from(is_spent() && !was_spent);
    }
}

const LINES: [&str; 14] = [
    "new 1 w0 a k=v",
    "enter 1 w0 a",
    "new 2 w0 a:b",
    "enter 2 w0 a:b",
    "record 2 w0 a:b key=value",
    "event 2 w0 a:b INFO m",
    "exit 2 w0 a:b",
    "exit 1 w0 a",
    "close 2 w0 a:b key=value",
    "close 1 w0 a k=v",
    "event 0 w0 - INFO end",
    "new 16777217 w0 c k=v",
    "event 0 w0 - INFO at",
    "close 16777217 w0 c k=v",
];

/// All kinds of calls and drops.
fn run(registry: Registry) -> Calls {
    assert_eq!(registry.worker(), Ok(0));
    let mut calls = Calls {
        registry,
        refused: 0,
        owed: 0,
    };
    let a = calls.make(|registry| registry.span(&info("a"), Parent::Root, &[("k", "v")]));
    let in_a = calls.make(|_| a.try_enter());
    let b = calls.make(|registry| registry.span(&info("b"), Parent::Current, &[]));
    let own = calls.make(|_| b.try_clone());
    let in_b = calls.make(|_| b.try_enter());
    calls.make(|_| b.try_record(&[("key", "value")]));
    calls.make(|registry| Ids(registry.clone()).event("m"));
    let open = calls.make(|registry| registry.open_spans());
    let why = calls.make(|registry| registry.why_open(id(registry, 1)));
    assert_eq!((open.len(), why.len()), (2, 2));
    let of_b = calls.make(|registry| registry.open_span(id(registry, 2)));
    assert_eq!((&*of_b.name, of_b.fields.len()), ("b", 1));
    calls.drop(in_b);
    calls.drop(own);
    calls.drop(in_a);
    assert_eq!(calls.registry.find(id(&calls.registry, 2)).expect("open").handles, 1);
    calls.drop(a.clone());
    calls.drop(b);
    calls.drop(a);
    calls.make(|registry| Ids(registry.clone()).event("end"));
    let place = calls.make(|registry| registry.callsite(&info("c")));
    let c = calls.make(|registry| registry.span_at(&place, Parent::Root, &[("k", "v")]));
    calls.make(|registry| registry.event_at(&place, "at", &[]));
    calls.drop(c);
    assert_empty(&calls.registry);
    assert_eq!(calls.registry.counts().calls, 16);
    calls
}

/// How what is at hand is read.
type Read = fn(&mut Drain) -> Vec<String>;

/// The lines are those, but for the ones that are missing.
fn compare_lines(drain: &mut Drain, read: Read, wanted: &[String]) {
    let lines = read(drain);
    let missed = usize::try_from(drain.counts().missed).expect("few");
    assert_eq!(lines.len() + missed, wanted.len());
    let mut wanted = wanted.iter();
    assert!(
        lines.iter().all(|line| wanted.any(|wanted| wanted == line)),
        "{lines:?}"
    );
}

/// Refuses each allocation in turn.
fn refuse_each(builder: &RegistryBuilder, read: Read, wanted: &[String]) {
    let _alone = ALONE.lock().unwrap_or_else(PoisonError::into_inner);
    let (mut of_build, mut of_calls, mut of_drops, mut of_lines) = (0, 0, 0, 0);
    for before in 0.. {
        BEFORE.store(before, Ordering::SeqCst);
        match builder.clone().build() {
            Err(error) => {
                assert_eq!(error, Error::OutOfMemory);
                of_build += 1;
            }
            Ok((registry, mut drain)) => {
                let calls = run(registry);
                compare_lines(&mut drain, read, wanted);
                of_calls += calls.refused;
                of_drops += calls.owed;
                of_lines += drain.counts().missed;
                if !is_spent() {
                    break;
                }
            }
        }
    }
    println!("refused: {of_build} starts, {of_calls} calls, {of_drops} drops, {of_lines} lines");
    assert!(of_build > 0 && of_calls > 0 && of_drops > 0 && of_lines > 0);
}

#[test]
fn each_refused_allocation_is_answered_and_changes_nothing() {
    refuse_each(&compact(), texts, &LINES.map(str::to_owned));
}

#[test]
fn notes_are_missing_only_where_memory_was_refused_for_them() {
    let trees = Registry::builder().workers(1).layer(Layer::tree());
    let read: Read = |drain| {
        std::iter::from_fn(|| drain.note())
            .map(|note| as_compact(&note))
            .collect()
    };
    refuse_each(&trees, read, &LINES.map(str::to_owned));
}

/// With no time in those of trees.
fn timeless(drain: &mut Drain) -> Vec<String> {
    let without = |text: String| match text.split_once(",\"fields\":") {
        Some((_, rest)) => format!("tree {rest}"),
        None => text,
    };
    texts(drain).into_iter().map(without).collect()
}

#[test]
fn lines_of_trees_beside_others_are_missing_only_where_memory_was_refused_for_them() {
    let both = compact().layer(Layer::tree());
    let wanted = {
        let _alone = ALONE.lock().unwrap_or_else(PoisonError::into_inner);
        BEFORE.store(u64::MAX, Ordering::SeqCst);
        let (registry, mut drain) = both.clone().build().expect("memory is there");
        run(registry);
        timeless(&mut drain)
    };
    let (trees, others): (Vec<&String>, Vec<&String>) = wanted.iter().partition(|line| line.starts_with("tree "));
    assert!(others == LINES && trees.len() == LINES.len());
    refuse_each(&both, timeless, &wanted);
}

#[test]
fn a_callsite_that_one_part_was_refused_leaves_the_numbers_of_others_the_same() -> Result<(), Error> {
    const PARTS: u32 = 3;
    let _alone = ALONE.lock().unwrap_or_else(PoisonError::into_inner);
    let (mut of_build, mut of_callsites) = (0, 0);
    for before in 0.. {
        BEFORE.store(before, Ordering::SeqCst);
        let Ok((registry, mut drain)) = compact().parts(PARTS).build() else {
            of_build += 1;
            continue;
        };
        BEFORE.store(before - of_build, Ordering::SeqCst);
        of_callsites += u64::from(registry.callsite(&info("a")).is_err());
        let was_spent = is_spent();
        BEFORE.store(u64::MAX, Ordering::SeqCst);
        let site = registry.callsite(&info("b"))?;
        // Threads' roots go round the parts.
        let mut parts = HashSet::new();
        while parts.len() < PARTS as usize {
            let made = || registry.span_at(&site, Parent::Root, &[]).map(|span| span.id());
            let id = thread::scope(|scope| scope.spawn(made).join()).expect("no panic")?;
            parts.extend(id.map(|id| id.part()));
            let names: Vec<bool> = texts(&mut drain).iter().map(|text| text.ends_with(" b")).collect();
            assert_eq!(names, [true, true]);
        }
        if !was_spent {
            break;
        }
    }
    assert!(
        of_build > 0 && of_callsites > 0,
        "{of_build} starts, {of_callsites} callsites"
    );
    Ok(())
}

#[test]
fn a_guard_tells_of_lines_that_are_missing() -> Result<(), Box<dyn std::error::Error>> {
    let _alone = ALONE.lock().unwrap_or_else(PoisonError::into_inner);
    let mut missing = 0;
    for before in 0.. {
        BEFORE.store(u64::MAX, Ordering::SeqCst);
        let (registry, drain) = compact().build()?;
        Ids(registry.clone()).event("m")?;
        // From here on only the writer takes memory of the library.
        BEFORE.store(before, Ordering::SeqCst);
        match drain.spawn(io::sink())?.finish() {
            Ok(lines) => assert_eq!(lines, 1),
            Err(error) => {
                assert_eq!(error.kind(), io::ErrorKind::OutOfMemory);
                assert_eq!(error.to_string(), "lines written: 0, missing for want of memory: 1");
                missing += 1;
            }
        }
        if !is_spent() {
            break;
        }
    }
    assert!(missing > 0);
    Ok(())
}
