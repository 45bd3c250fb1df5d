//! How a mutex is taken that threads have for some hundred instructions at a time.
#![forbid(unsafe_code)]
use std::hint;
use std::sync::{Mutex, MutexGuard, PoisonError, TryLockError};

/// How often it is tried again before the thread sleeps, since to sleep and to be woken takes both threads longer than
/// many calls.
const TRIES: u32 = 16;
/// For how many pauses of the processor it is left alone before each try. So who has the mutex takes it many times in a
/// row, while what it works on is near its processor: with 64 pauses four threads made a fifth fewer calls, and where
/// these began with 1 and doubled, half as many.
const PAUSES: u32 = 256;

/// Takes it. A poison says nothing: see [`Part::with`](crate::part::Part::with).
#[inline(always)]
pub(crate) fn lock<T>(mutex: &Mutex<T>) -> MutexGuard<'_, T> {
    taken(mutex).unwrap_or_else(|| locked_later(mutex))
}

#[inline(always)]
fn taken<T>(mutex: &Mutex<T>) -> Option<MutexGuard<'_, T>> {
    match mutex.try_lock() {
        Ok(guard) => Some(guard),
        Err(TryLockError::Poisoned(poisoned)) => Some(poisoned.into_inner()),
        Err(TryLockError::WouldBlock) => None,
    }
}

#[cold]
fn locked_later<T>(mutex: &Mutex<T>) -> MutexGuard<'_, T> {
    for _ in 0..TRIES {
        (0..PAUSES).for_each(|_| hint::spin_loop());
        if let Some(guard) = taken(mutex) {
            return guard;
        }
    }
    mutex.lock().unwrap_or_else(PoisonError::into_inner)
}
