//! All unsafe code of the registry: the proved store by its C interface, and values that threads read without a lock.
use super::{
    lock::Lock,
    places::Clear,
    refused::{answer, Refused},
};
use std::{
    cell::UnsafeCell,
    ffi::c_void,
    ops::Deref,
    ptr,
    sync::atomic::{AtomicBool, AtomicUsize, Ordering},
};

/// The version of include/span_store.h that the calls here are of.
const ABI_VERSION: u32 = 2;

/// `SpanStore` of include/span_store.h.
#[repr(C)]
struct Handle {
    at: *mut c_void,
}

/// `SpanStoreFound` of include/span_store.h.
#[repr(C)]
#[derive(Default)]
pub(super) struct Found {
    _of_its_start: [u64; 3],
    pub(super) handles: u32,
    pub(super) children: u32,
}

extern "C" {
    fn span_store_abi_version() -> u32;
    fn span_store_new(store: *mut Handle, slots: u32, last_generation: u32, max_count: u32) -> u32;
    fn span_store_free(store: *mut Handle) -> u32;
    fn span_store_add(store: *mut Handle, parent: u64, bits: u64, word: u64, id: *mut u64) -> u32;
    fn span_store_keep(store: *mut Handle, id: u64) -> u32;
    fn span_store_release(store: *mut Handle, id: u64, closing: *mut u32) -> u32;
    fn span_store_ended(store: *mut Handle, id: u64, parent: *mut u64) -> u32;
    fn span_store_find(store: *mut Handle, id: u64, found: *mut Found) -> u32;
    fn span_store_next(store: *mut Handle, id: u64, next: *mut u64) -> u32;
}

/// A proved store of spans, one call at a time. What its calls do is said in include/span_store.h.
pub(super) struct Store {
    lock: Lock,
    handle: UnsafeCell<Handle>,
}

// SAFETY: nothing of a store belongs to a thread, and its handle is used under its lock alone.
unsafe impl Send for Store {}
// SAFETY: as above.
unsafe impl Sync for Store {}

// SAFETY, of each call below: the handle was filled by `span_store_new` and is emptied by the drop alone, `call` has
// it for itself as long as the call lasts, and each number that is told is written to a variable of this call.
impl Store {
    pub(super) fn new(slots: u32, last_generation: u32, max_count: u32) -> Result<Self, Refused> {
        assert_eq!(unsafe { span_store_abi_version() }, ABI_VERSION, "libspan_store_ffi.a is of another version");
        let mut handle = Handle { at: ptr::null_mut() };
        answer(unsafe { span_store_new(&mut handle, slots, last_generation, max_count) })?;
        Ok(Store { lock: Lock::default(), handle: UnsafeCell::new(handle) })
    }

    #[inline]
    fn call(&self, call: impl FnOnce(*mut Handle) -> u32) -> Result<(), Refused> {
        self.lock.take();
        let status = call(self.handle.get());
        self.lock.give_back();
        answer(status)
    }

    #[inline]
    pub(super) fn add(&self, parent: u64) -> Result<u64, Refused> {
        let mut id = 0;
        self.call(|handle| unsafe { span_store_add(handle, parent, 0, 0, &mut id) })?;
        Ok(id)
    }

    #[inline]
    pub(super) fn keep(&self, id: u64) -> Result<(), Refused> {
        self.call(|handle| unsafe { span_store_keep(handle, id) })
    }

    /// Whether the span is closing now.
    #[inline]
    pub(super) fn release(&self, id: u64) -> Result<bool, Refused> {
        let mut closing = 0;
        self.call(|handle| unsafe { span_store_release(handle, id, &mut closing) })?;
        Ok(closing != 0)
    }

    /// The parent where that is closing now, else 0.
    #[inline]
    pub(super) fn ended(&self, id: u64) -> Result<u64, Refused> {
        let mut parent = 0;
        self.call(|handle| unsafe { span_store_ended(handle, id, &mut parent) })?;
        Ok(parent)
    }

    pub(super) fn find(&self, id: u64) -> Result<Found, Refused> {
        let mut found = Found::default();
        self.call(|handle| unsafe { span_store_find(handle, id, &mut found) }).map(|()| found)
    }

    /// The span that is there and comes after an id, or the first one after 0; 0 where none is left.
    pub(super) fn next(&self, id: u64) -> Result<u64, Refused> {
        let mut next = 0;
        self.call(|handle| unsafe { span_store_next(handle, id, &mut next) }).map(|()| next)
    }
}

impl Drop for Store {
    fn drop(&mut self) {
        unsafe { span_store_free(self.handle.get()) };
    }
}

/// `holds` of a value that one thread has to itself.
const ALONE: usize = usize::MAX;

/// A value that threads read while it is held. Who sets `holds` from 0 or 1 to `ALONE` has it alone until `holds` is
/// set again.
#[derive(Default)]
pub(super) struct Shared<T> {
    holds: AtomicUsize,
    // Whether one of the holds is the one that it was filled with.
    is_owned: AtomicBool,
    value: UnsafeCell<T>,
}

// SAFETY: threads share the value where `T` is `Sync`, and one after the other has it to itself where it is `Send`.
unsafe impl<T: Send + Sync> Sync for Shared<T> {}

/// A hold of a value: it stays as it is.
pub(super) struct Held<'a, T: Clear>(&'a Shared<T>);

impl<T: Clear> Shared<T> {
    /// Fills the value, and holds it once, where nobody holds it.
    #[inline]
    pub(super) fn fill(&self, fill: impl FnOnce(&mut T)) -> bool {
        let is_free = self.holds.compare_exchange(0, ALONE, Ordering::Acquire, Ordering::Relaxed).is_ok();
        if is_free {
            // SAFETY: nobody held it, and nobody makes a hold while `holds` is `ALONE`.
            fill(unsafe { &mut *self.value.get() });
            self.holds.store(1, Ordering::Release);
            self.is_owned.store(true, Ordering::Release);
        }
        is_free
    }

    /// The hold that it was filled with, once.
    #[inline]
    pub(super) fn take(&self) -> Option<Held<'_, T>> {
        self.is_owned.swap(false, Ordering::Acquire).then(|| Held(self))
    }

    /// One more hold, where it is held.
    #[inline]
    pub(super) fn hold(&self) -> Option<Held<'_, T>> {
        let mut now = self.holds.load(Ordering::Relaxed);
        while now != 0 && now != ALONE {
            match self.holds.compare_exchange_weak(now, now + 1, Ordering::Acquire, Ordering::Relaxed) {
                Ok(_) => return Some(Held(self)),
                Err(other) => now = other,
            }
        }
        None
    }
}

impl<T: Clear> Deref for Held<'_, T> {
    type Target = T;

    #[inline]
    fn deref(&self) -> &T {
        // SAFETY: this is a hold, so `holds` is neither 0 nor `ALONE`, and nobody has the value to itself.
        unsafe { &*self.0.value.get() }
    }
}

impl<T: Clear> Drop for Held<'_, T> {
    #[inline]
    fn drop(&mut self) {
        let holds = &self.0.holds;
        let mut now = holds.load(Ordering::Relaxed);
        while let Err(other) = {
            let then = if now == 1 { ALONE } else { now - 1 };
            holds.compare_exchange_weak(now, then, Ordering::AcqRel, Ordering::Relaxed)
        } {
            now = other;
        }
        if now == 1 {
            // SAFETY: this was the last hold, and nobody makes one while `holds` is `ALONE`.
            unsafe { &mut *self.0.value.get() }.clear();
            holds.store(0, Ordering::Release);
        }
    }
}
