//! A part of a registry: its lock, and what may be asked without it.
#![forbid(unsafe_code)]
use crate::interest::Interest;
use crate::lock::lock;
use crate::lost::{Losses, Lost};
use crate::owed::Debt;
use crate::refusal::Refusal;
use crate::ring::Ring;
use crate::seats::Caller;
use crate::state::State;
use crate::workers;
use crate::writer::Asked;
use std::sync::atomic::{AtomicBool, AtomicU32, AtomicU64, Ordering};
use std::sync::{Arc, Mutex, MutexGuard, OnceLock, PoisonError, Weak};
use std::thread;
use std::time::Duration;

/// How many parts of registries this process has made.
static MADE: AtomicU64 = AtomicU64::new(0);

/// What the parts of a registry have in common.
pub(crate) struct Common {
    interest: Interest,
    // How many parts were made before, and the first of this registry.
    number: u64,
    // Whether each registry and each span is gone. The drain may be there still.
    is_over: AtomicBool,
    losses: Arc<Losses>,
    // What was lost when that was last told. Who has the lock of a part may take this one.
    told: Mutex<Lost>,
    // How many parts owe something.
    owing: Arc<AtomicU32>,
    // Who adds a callsite has this one, and then the lock of a part.
    adding: Mutex<()>,
    // What is asked of the thread that writes, where one was spawned.
    writer: OnceLock<Arc<Asked>>,
}

impl Common {
    /// Of a registry of so many parts.
    pub(crate) fn new(interest: Interest, losses: Arc<Losses>, parts: u32) -> Common {
        Common {
            interest,
            number: MADE.fetch_add(u64::from(parts), Ordering::Relaxed) + 1,
            is_over: AtomicBool::new(false),
            losses,
            told: Mutex::default(),
            owing: Arc::default(),
            adding: Mutex::default(),
            writer: OnceLock::new(),
        }
    }

    /// A thread writes the lines from now on. There is one drain, which comes to one thread.
    pub(crate) fn is_written(&self, asked: Arc<Asked>) {
        let _first = self.writer.set(asked);
    }

    /// What is asked of the thread that writes; none where none was spawned.
    pub(crate) fn writer(&self) -> Option<&Asked> {
        self.writer.get().map(|asked| &**asked)
    }

    /// By which the registry is told from all others of the process, also those that are gone.
    #[inline]
    pub(crate) fn number(&self) -> u64 {
        self.number
    }

    pub(crate) fn losses(&self) -> &Losses {
        &self.losses
    }

    #[inline]
    pub(crate) fn interest(&self) -> &Interest {
        &self.interest
    }

    /// One callsite is added after another.
    pub(crate) fn adding(&self) -> &Mutex<()> {
        &self.adding
    }

    /// A part's debt.
    pub(crate) fn debt(&self) -> Arc<Debt> {
        Arc::new(Debt::new(Arc::clone(&self.owing)))
    }

    /// Whether a part owes something, told without a lock.
    #[inline]
    pub(crate) fn owes(&self) -> bool {
        self.owing.load(Ordering::Acquire) > 0
    }

    pub(crate) fn end(&self) {
        self.is_over.store(true, Ordering::Release);
    }

    pub(crate) fn is_over(&self) -> bool {
        self.is_over.load(Ordering::Acquire)
    }
}

/// A call as a worker. It may be made again, and is copied for that, where it comes to that: so where it is done at
/// once, nothing of it has to stand in memory.
pub(crate) trait Calling<T>: Fn(&mut State, u32) -> Result<T, Refusal> + Copy {}
impl<T, F: Fn(&mut State, u32) -> Result<T, Refusal> + Copy> Calling<T> for F {}

/// A proved registry with its lock and its ring. No two parts have a line of the processors' caches in common, and
/// neither have the lock's word, the [`State`] and what is only read here.
#[repr(align(128))]
pub(crate) struct Part {
    state: Mutex<State>,
    // For threads that keep a number in it.
    itself: Weak<Part>,
    ring: Arc<Ring>,
    common: Arc<Common>,
    losses: Arc<Losses>,
    number: u64,
    // Among the parts of its registry.
    place: u32,
    // The number by which lines tell its first worker.
    first_worker: u32,
    debt: Arc<Debt>,
}

impl Part {
    pub(crate) fn new(state: State, ring: Arc<Ring>, common: Arc<Common>, place: u32) -> Arc<Part> {
        Arc::new_cyclic(|itself| Part {
            first_worker: state.as_told(0),
            debt: Arc::clone(state.debt()),
            state: Mutex::new(state),
            itself: Weak::clone(itself),
            ring,
            number: common.number + u64::from(place),
            losses: Arc::clone(&common.losses),
            common,
            place,
        })
    }

    /// A weak reference to this part.
    pub(crate) fn weak(&self) -> Weak<Part> {
        Weak::clone(&self.itself)
    }

    /// Runs a call under the lock. No code of the program's runs there but its global allocator, which must not call
    /// the registry. So where a thread panicked with the lock, it was between two calls of the registry, each of which
    /// is done whole or refused: the poison says nothing. What spans carried that closed is dropped behind it.
    #[inline(always)]
    pub(crate) fn with<T>(&self, call: impl FnOnce(&mut State) -> T) -> T {
        let mut state = self.lock();
        let answer = call(&mut state);
        unlock(state);
        answer
    }

    /// Runs what takes no place in the ring, after what is owed, as far as that can be done now.
    pub(crate) fn settled<T>(&self, call: impl FnOnce(&mut State) -> T) -> T {
        self.with(|state| {
            let _owing = state.settle();
            call(state)
        })
    }

    #[inline(always)]
    fn lock(&self) -> MutexGuard<'_, State> {
        lock(&self.state)
    }

    /// Makes a call until it isn't refused for want of a place, where the registry waits for the drain.
    #[inline(always)]
    pub(crate) fn until_placed<T>(&self, mut call: impl FnMut() -> Result<T, Refusal>) -> Result<T, Refusal> {
        let mut turn: u32 = 0;
        loop {
            let result = call();
            if !matches!(result, Err(Refusal::BACKLOG)) || !self.has_waited(turn) {
                return result;
            }
            turn = turn.saturating_add(1);
        }
    }

    // Where a call waits for a place, it does that.
    #[cold]
    fn has_waited(&self, turn: u32) -> bool {
        let waits = self.ring.waits() && !workers::is_writing(&self.common);
        if waits {
            wait(turn);
        }
        waits
    }

    /// A thread's call: what is owed comes first, then the thread's number, which `number` gives it where it has none,
    /// then the call, and then, where there is room, what was lost. What other parts owe comes before that.
    #[inline(always)]
    pub(crate) fn call<T>(
        &self,
        number: fn(&mut State, Caller) -> Result<u32, Refusal>,
        call: impl Calling<T>,
    ) -> Result<T, Refusal> {
        match self.call_now(number, call) {
            Ok(answer) => Ok(answer),
            Err(refusal) => {
                let again = call;
                Ok(self.call_later(refusal, number, &again)?)
            }
        }
    }

    // It was refused for this. It is made again once it has waited for a place.
    #[cold]
    #[inline(never)]
    fn call_later<T>(
        &self,
        refusal: Refusal,
        number: fn(&mut State, Caller) -> Result<u32, Refusal>,
        call: &impl Calling<T>,
    ) -> Result<T, Refusal> {
        let (mut result, mut turn) = (Err(refusal), 0_u32);
        while matches!(result, Err(Refusal::BACKLOG)) && self.has_waited(turn) {
            result = self.call_now(number, *call);
            turn = turn.saturating_add(1);
        }
        result
    }

    // Done and refused calls go different ways from here on, so that one that is done isn't asked what it was refused
    // for.
    #[inline(always)]
    fn call_now<T>(
        &self,
        number: fn(&mut State, Caller) -> Result<u32, Refusal>,
        call: impl Calling<T>,
    ) -> Result<T, Refusal> {
        let caller = workers::caller(self);
        let mut state = self.lock();
        match self.called(&mut state, caller, number, call) {
            Ok(answer) => {
                self.tell(&mut state);
                unlock(state);
                Ok(answer)
            }
            Err(refusal) => Err(refused(state, refusal)),
        }
    }

    #[inline(always)]
    fn called<T>(
        &self,
        state: &mut State,
        caller: Caller,
        number: fn(&mut State, Caller) -> Result<u32, Refusal>,
        call: impl Calling<T>,
    ) -> Result<T, Refusal> {
        state.settle()?;
        let worker = match state.worker_of(caller) {
            Some(worker) => worker,
            None => self.numbered(state, caller, number)?,
        };
        call(state, worker)
    }

    // As which worker a thread calls that has no number.
    #[cold]
    fn numbered(
        &self,
        state: &mut State,
        caller: Caller,
        number: fn(&mut State, Caller) -> Result<u32, Refusal>,
    ) -> Result<u32, Refusal> {
        let worker = number(state, caller)?;
        // A call that is refused from here on may have taken a number too.
        workers::called_as(self, caller, worker);
        Ok(worker)
    }

    /// By which it is told from all others of the process, also those that are gone.
    #[inline]
    pub(crate) fn number(&self) -> u64 {
        self.number
    }

    /// Among the parts of its registry.
    #[inline]
    pub(crate) fn place(&self) -> u32 {
        self.place
    }

    /// The number by which lines tell its first worker.
    pub(crate) fn first_worker(&self) -> u32 {
        self.first_worker
    }

    pub(crate) fn common(&self) -> &Arc<Common> {
        &self.common
    }

    pub(crate) fn ring(&self) -> &Ring {
        &self.ring
    }

    /// Whether something was lost since the last telling, and somebody may read of it.
    pub(crate) fn is_untold(&self) -> bool {
        self.losses.is_untold() && !self.ring.is_unread()
    }

    /// Tells what was lost since the last telling, if there is anything and the ring has room.
    #[inline]
    pub(crate) fn tell(&self, state: &mut State) {
        if self.is_untold() {
            self.tell_now(state);
        }
    }

    #[cold]
    fn tell_now(&self, state: &mut State) {
        let losses = &self.losses;
        let mut told = self.common.told.lock().unwrap_or_else(PoisonError::into_inner);
        // What is lost from here on is told the next time.
        losses.set_untold(false);
        let lost = losses.so_far();
        match state.tell(lost.since(&told)) {
            Ok(()) => *told = lost,
            Err(_) => losses.set_untold(true),
        }
    }

    /// Whether something is owed, told without the lock.
    #[inline]
    pub(crate) fn owes(&self) -> bool {
        self.debt.is_there()
    }
}

#[inline(always)]
fn unlock(state: MutexGuard<'_, State>) {
    if state.has_closed() {
        let_go(state);
    }
}

/// The same, where a call was refused for this.
#[cold]
#[inline(never)]
fn refused(state: MutexGuard<'_, State>, refusal: Refusal) -> Refusal {
    unlock(state);
    refusal
}

/// What closed spans carried is dropped once the lock isn't held, since that may call the registry.
#[cold]
fn let_go(mut state: MutexGuard<'_, State>) {
    let closed = state.take_closed();
    drop(state);
    drop(closed);
}

/// Lets other threads run: at the first turns only that, since a line or a place may be on its way, and then for half
/// a millisecond each.
pub(crate) fn wait(turn: u32) {
    if turn < 64 {
        thread::yield_now();
    } else {
        thread::sleep(Duration::from_micros(500));
    }
}

#[cfg(test)]
mod tests {
    use crate::{Error, Layer, Level, Meta, Parent, Registry, Span};
    use std::thread;
    use std::time::Duration;

    #[test]
    fn a_thousand_handles_that_are_dropped_while_the_lock_is_held_are_given_back() -> Result<(), Error> {
        const SPANS: u32 = 1000;
        for ring in [65_536, 1] {
            let (registry, mut drain) = Registry::builder().ring(ring).layer(Layer::compact()).build()?;
            let meta = Meta::new(Level::Info, "app", "a");
            let mut spans = Vec::new();
            for _ in 0..SPANS {
                spans.push(registry.span(&meta, Parent::Root, &[])?);
                drain.lines().for_each(drop);
            }
            let threads = registry.parts().part(0).with(|_| {
                let threads: Vec<_> = (0..4)
                    .map(|_| spans.split_off(spans.len() - SPANS as usize / 4))
                    .map(|some: Vec<Span>| thread::spawn(move || drop(some)))
                    .collect();
                thread::sleep(Duration::from_millis(50));
                threads
            });
            threads.into_iter().for_each(|thread| thread.join().expect("no panic"));
            drain.lines().for_each(drop);
            let counts = registry.counts();
            assert_eq!((counts.closed, counts.owed, counts.held), (1000, 0, 0), "{counts:?}");
        }
        Ok(())
    }
}
