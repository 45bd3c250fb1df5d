//! A lock for calls of some dozens of instructions that neither panic nor call anybody: it knows no poison, and costs
//! an exchange each time it is taken and given back.
use std::{
    hint,
    sync::{
        atomic::{AtomicU32, Ordering},
        Condvar, Mutex, PoisonError,
    },
};

const FREE: u32 = 0;
const TAKEN: u32 = 1;
/// It is taken, and a thread may sleep until it is free.
const AWAITED: u32 = 2;

/// How often it is looked at before a thread sleeps, and after how many pauses: four times as many each time, up to
/// the most. Each look takes the lock's memory from the thread that has it, and with the lock goes all that it guards:
/// so one thread does some calls in a row while the others wait, which is several times as fast as one call each.
const LOOKS: u32 = 10;
const FIRST_PAUSES: u32 = 64;
const MOST_PAUSES: u32 = 1024;

/// Who looks at it takes nothing but the lock itself from the thread that has it: it has its own lines of the caches.
#[derive(Default)]
#[repr(align(128))]
pub(super) struct Lock {
    state: AtomicU32,
    sleepers: Mutex<()>,
    wakes: Condvar,
}

impl Lock {
    #[inline]
    pub(super) fn take(&self) {
        if !self.is_taken_now() {
            self.wait();
        }
    }

    #[inline]
    pub(super) fn give_back(&self) {
        if self.state.swap(FREE, Ordering::Release) == AWAITED {
            self.wake();
        }
    }

    #[inline]
    fn is_taken_now(&self) -> bool {
        self.state.compare_exchange(FREE, TAKEN, Ordering::Acquire, Ordering::Relaxed).is_ok()
    }

    #[cold]
    fn wait(&self) {
        let mut pauses = FIRST_PAUSES;
        for _ in 0..LOOKS {
            (0..pauses).for_each(|_| hint::spin_loop());
            pauses = (4 * pauses).min(MOST_PAUSES);
            if self.state.load(Ordering::Relaxed) == FREE && self.is_taken_now() {
                return;
            }
        }
        let mut sleepers = self.sleepers.lock().unwrap_or_else(PoisonError::into_inner);
        // Who gives it back from here on sees that it is awaited, and wakes a sleeper once this one sleeps.
        while self.state.swap(AWAITED, Ordering::Acquire) != FREE {
            sleepers = self.wakes.wait(sleepers).unwrap_or_else(PoisonError::into_inner);
        }
    }

    #[cold]
    fn wake(&self) {
        let _sleepers = self.sleepers.lock().unwrap_or_else(PoisonError::into_inner);
        self.wakes.notify_one();
    }
}
