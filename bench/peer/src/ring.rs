//! A bounded ring between two threads.
use std::cell::UnsafeCell;
use std::mem::MaybeUninit;
use std::sync::atomic::{AtomicUsize, Ordering};
use std::sync::Arc;

/// A counter with a cache line of its own.
#[repr(align(128))]
#[derive(Default)]
struct Counter(AtomicUsize);

struct Places<T> {
    all: Box<[UnsafeCell<MaybeUninit<T>>]>,
    /// How many items were ever put in, and taken out.
    sent: Counter,
    taken: Counter,
}

// SAFETY: the two ends share no place: one writes those from `sent` on, the other reads those below it.
unsafe impl<T: Send> Sync for Places<T> {}

impl<T> Places<T> {
    fn at(&self, number: usize) -> *mut MaybeUninit<T> {
        self.all[number & (self.all.len() - 1)].get()
    }
}

/// The end that puts items in.
pub struct Sender<T> {
    places: Arc<Places<T>>,
    sent: usize,
    /// How many were taken when it was last looked.
    taken: usize,
}

/// The end that takes items out.
pub struct Receiver<T> {
    places: Arc<Places<T>>,
    taken: usize,
    /// How many were sent when it was last looked.
    sent: usize,
}

/// Both ends of a ring with as many places as the next power of two.
pub fn ring<T>(places: usize) -> (Sender<T>, Receiver<T>) {
    let all = std::iter::repeat_with(|| UnsafeCell::new(MaybeUninit::uninit()));
    let places = Arc::new(Places {
        all: all.take(places.next_power_of_two()).collect(),
        sent: Counter::default(),
        taken: Counter::default(),
    });
    (
        Sender {
            places: places.clone(),
            sent: 0,
            taken: 0,
        },
        Receiver {
            places,
            taken: 0,
            sent: 0,
        },
    )
}

impl<T> Sender<T> {
    pub fn has_room(&mut self) -> bool {
        if self.sent - self.taken == self.places.all.len() {
            self.taken = self.places.taken.0.load(Ordering::Acquire);
        }
        self.sent - self.taken < self.places.all.len()
    }

    /// Puts an item in, or gives it back where there is no place.
    pub fn push(&mut self, item: T) -> Result<(), T> {
        if !self.has_room() {
            return Err(item);
        }
        // SAFETY: the item that was here is taken, and the receiver reads this place only once `sent` is stored.
        unsafe { (*self.places.at(self.sent)).write(item) };
        self.sent += 1;
        self.places.sent.0.store(self.sent, Ordering::Release);
        Ok(())
    }
}

impl<T> Receiver<T> {
    pub fn pop(&mut self) -> Option<T> {
        if self.taken == self.sent {
            self.sent = self.places.sent.0.load(Ordering::Acquire);
        }
        if self.taken == self.sent {
            return None;
        }
        // SAFETY: the item was written before `sent` was stored, and it is taken once, since `taken` moves on.
        let item = unsafe { (*self.places.at(self.taken)).assume_init_read() };
        self.taken += 1;
        self.places.taken.0.store(self.taken, Ordering::Release);
        Some(item)
    }
}

impl<T> Drop for Receiver<T> {
    fn drop(&mut self) {
        while self.pop().is_some() {}
    }
}
