//! Which thread has which worker's number.
//!
//! A thread that is inside a span keeps its number. One that is inside none is *idle*, and its number may be taken
//! over where none is free, that of the longest idle thread first. Calls of a thread without a number are made as the
//! *outsider*, a worker that is never inside a span.
#![forbid(unsafe_code)]
use crate::refusal::Refusal;
use crate::routing::NOBODY;

/// A thread that has ended and is still inside: its number is nobody's until it has left.
const GONE: u64 = NOBODY - 1;
/// No seat.
pub(crate) const NONE: u32 = u32::MAX;
/// No neighbour, of a seat that isn't in the list.
const UNLISTED: u32 = u32::MAX - 1;

/// A thread of the process that calls, as it is known before the lock is taken.
#[derive(Clone, Copy, Debug)]
pub(crate) struct Caller {
    /// Never the same for two threads; [`NOBODY`] where it can't give a number back when it ends.
    pub(crate) thread: u64,
    /// The number that it had last in this registry, or [`NONE`].
    pub(crate) last: u32,
}

impl Caller {
    /// Whether it may have a number.
    #[inline]
    pub(crate) fn may_own(self) -> bool {
        self.thread != NOBODY
    }
}

#[derive(Clone, Copy, Debug)]
struct Seat {
    thread: u64,
    // Entries that it hasn't left, also those that repeat a span.
    depth: u32,
    // Its neighbours in the list.
    before: u32,
    after: u32,
}

impl Seat {
    const FREE: Seat = Seat {
        thread: NOBODY,
        depth: 0,
        before: UNLISTED,
        after: UNLISTED,
    };
}

/// The seats of all workers but the outsider.
pub(crate) struct Seats {
    seats: Vec<Seat>,
    // Those that no thread has; the next one is at the end.
    free: Vec<u32>,
    // The list of all idle seats, which begins with the one that is idle longest. One by which a thread entered a span
    // since stays where it is: so a thread that enters and leaves, and no other meanwhile, changes nothing here.
    first: u32,
    last: u32,
}

impl Seats {
    pub(crate) fn new(workers: u32) -> Result<Seats, Refusal> {
        let (mut seats, mut free) = (Vec::new(), Vec::new());
        let room = workers as usize;
        seats.try_reserve_exact(room).map_err(|_| Refusal::OUT_OF_MEMORY)?;
        free.try_reserve_exact(room).map_err(|_| Refusal::OUT_OF_MEMORY)?;
        seats.resize(room, Seat::FREE);
        free.extend((0..workers).rev());
        Ok(Seats {
            seats,
            free,
            first: NONE,
            last: NONE,
        })
    }

    /// The worker of calls of threads that have no number.
    pub(crate) fn outsider(&self) -> u32 {
        // A registry has at most 65,536 workers.
        self.seats.len() as u32
    }

    /// How many numbers there are.
    pub(crate) fn all(&self) -> u32 {
        self.outsider()
    }

    /// How many numbers threads have.
    pub(crate) fn taken(&self) -> u32 {
        (self.seats.len() - self.free.len()) as u32
    }

    /// The number that the thread has.
    #[inline]
    pub(crate) fn of(&self, caller: Caller) -> Option<u32> {
        let seat = self.seats.get(caller.last as usize)?;
        (seat.thread == caller.thread).then_some(caller.last)
    }

    /// As which worker the thread makes a call: by the number that it has, or by a free one, or as the outsider.
    #[cold]
    pub(crate) fn of_or_free(&mut self, caller: Caller) -> u32 {
        let mine = self.of(caller);
        mine.or_else(|| self.take_free(caller))
            .unwrap_or_else(|| self.outsider())
    }

    /// The number by which the thread may enter a span: the one that it has, a free one, or that of an idle thread.
    #[inline]
    pub(crate) fn entering(&mut self, caller: Caller) -> Result<u32, Refusal> {
        match self.of(caller) {
            Some(mine) => Ok(mine),
            None => self.taking(caller),
        }
    }

    #[cold]
    fn taking(&mut self, caller: Caller) -> Result<u32, Refusal> {
        let free = self.take_free(caller);
        free.or_else(|| self.take_over(caller)).ok_or(Refusal::TOO_MANY_THREADS)
    }

    fn take_free(&mut self, caller: Caller) -> Option<u32> {
        if !caller.may_own() {
            return None;
        }
        let at = self.free.pop()?;
        self.seats[at as usize].thread = caller.thread;
        self.becomes_idle(at);
        Some(at)
    }

    fn take_over(&mut self, caller: Caller) -> Option<u32> {
        if !caller.may_own() {
            return None;
        }
        // What is not idle any longer is looked at once.
        while self.first != NONE && self.seats[self.first as usize].depth > 0 {
            self.unlist(self.first);
        }
        let at = (self.first != NONE).then_some(self.first)?;
        self.seats[at as usize].thread = caller.thread;
        self.becomes_idle(at);
        Some(at)
    }

    /// The worker has one entry more.
    #[inline]
    pub(crate) fn entered(&mut self, worker: u32) {
        self.seats[worker as usize].depth += 1;
    }

    /// The worker has one entry fewer.
    #[inline]
    pub(crate) fn left(&mut self, worker: u32) {
        let seat = &mut self.seats[worker as usize];
        seat.depth -= 1;
        if seat.depth == 0 && self.last != worker {
            self.is_idle_again(worker);
        }
    }

    #[inline(never)]
    fn is_idle_again(&mut self, at: u32) {
        if self.seats[at as usize].thread != GONE {
            self.becomes_idle(at);
        }
    }

    /// The thread ends. Its number, where it is still inside by it: nobody has that until [`free`](Seats::free).
    pub(crate) fn ends(&mut self, caller: Caller) -> Option<u32> {
        let at = self.of(caller)?;
        self.unlist(at);
        if self.seats[at as usize].depth > 0 {
            self.seats[at as usize].thread = GONE;
            return Some(at);
        }
        self.free(at);
        None
    }

    /// Any thread may have this number, of a thread that has ended.
    pub(crate) fn free(&mut self, worker: u32) {
        self.seats[worker as usize].thread = NOBODY;
        // There is room for each.
        self.free.push(worker);
    }

    // It is idle for the shortest time.
    fn becomes_idle(&mut self, at: u32) {
        self.unlist(at);
        let seat = &mut self.seats[at as usize];
        (seat.before, seat.after) = (self.last, NONE);
        match self.last {
            NONE => self.first = at,
            last => self.seats[last as usize].after = at,
        }
        self.last = at;
    }

    // It is not in the list.
    fn unlist(&mut self, at: u32) {
        let seat = &mut self.seats[at as usize];
        let (before, after) = (seat.before, seat.after);
        if before == UNLISTED {
            return;
        }
        (seat.before, seat.after) = (UNLISTED, UNLISTED);
        match before {
            NONE => self.first = after,
            before => self.seats[before as usize].after = after,
        }
        match after {
            NONE => self.last = before,
            after => self.seats[after as usize].before = before,
        }
    }
}

#[cfg(test)]
mod tests {
    use super::{Caller, Seats, NONE};
    use crate::refusal::Refusal;
    use crate::routing::NOBODY;

    fn caller(thread: u64, last: Option<u32>) -> Caller {
        Caller {
            thread,
            last: last.unwrap_or(NONE),
        }
    }

    #[test]
    fn free_numbers_are_taken_in_order() -> Result<(), Refusal> {
        let mut seats = Seats::new(2)?;
        assert_eq!(
            [1, 2, 3].map(|thread| seats.of_or_free(caller(thread, None))),
            [0, 1, 2]
        );
        assert_eq!((seats.outsider(), seats.taken()), (2, 2));
        assert_eq!(seats.of(caller(1, Some(0))), Some(0));
        assert_eq!(seats.of(caller(3, Some(2))), None);
        assert_eq!(seats.of(caller(3, Some(0))), None);
        Ok(())
    }

    #[test]
    fn the_longest_idle_thread_loses_its_number() -> Result<(), Refusal> {
        let mut seats = Seats::new(3)?;
        for thread in 1..4 {
            let at = seats.entering(caller(thread, None))?;
            seats.entered(at);
        }
        assert_eq!(seats.entering(caller(4, None)), Err(Refusal::TOO_MANY_THREADS));
        for worker in [1, 2, 0] {
            seats.left(worker);
        }
        assert_eq!(seats.entering(caller(4, None)), Ok(1));
        seats.entered(1);
        assert_eq!(seats.of(caller(2, Some(1))), None);
        assert_eq!(seats.entering(caller(2, Some(1))), Ok(2));
        seats.entered(2);
        assert_eq!(seats.entering(caller(1, Some(0))), Ok(0));
        seats.entered(0);
        assert_eq!(seats.entering(caller(3, Some(2))), Err(Refusal::TOO_MANY_THREADS));
        Ok(())
    }

    #[test]
    fn of_those_that_left_again_the_one_that_left_first_loses_its_number() -> Result<(), Refusal> {
        let mut seats = Seats::new(3)?;
        let own = [1, 2, 3].map(|thread| seats.of_or_free(caller(thread, None)));
        assert_eq!(own, [0, 1, 2]);
        // All have been idle since their first calls, and one of them is inside again and again.
        for _ in 0..3 {
            seats.entered(2);
            seats.left(2);
        }
        seats.entered(0);
        seats.entered(0);
        seats.left(0);
        // The first in the list is inside, and the second is idle longest.
        assert_eq!(seats.entering(caller(4, None)), Ok(1));
        assert_eq!(seats.of(caller(2, Some(1))), None);
        seats.entered(1);
        seats.left(0);
        // Now the third is, and then the first, which is in the list again.
        for (thread, number) in [(5, 2), (6, 0)] {
            assert_eq!(seats.entering(caller(thread, None)), Ok(number));
            seats.entered(number);
        }
        assert_eq!(seats.entering(caller(7, None)), Err(Refusal::TOO_MANY_THREADS));
        Ok(())
    }

    #[test]
    fn a_thread_that_ends_inside_keeps_its_number_from_others() -> Result<(), Refusal> {
        let mut seats = Seats::new(1)?;
        assert_eq!(seats.entering(caller(1, None)), Ok(0));
        seats.entered(0);
        assert_eq!(seats.ends(caller(1, Some(0))), Some(0));
        seats.left(0);
        assert_eq!(seats.entering(caller(2, None)), Err(Refusal::TOO_MANY_THREADS));
        seats.free(0);
        assert_eq!((seats.taken(), seats.entering(caller(2, None))), (0, Ok(0)));
        assert_eq!(seats.ends(caller(2, Some(0))), None);
        assert_eq!(seats.taken(), 0);
        Ok(())
    }

    #[test]
    fn a_thread_that_can_give_nothing_back_takes_nothing() -> Result<(), Refusal> {
        let mut seats = Seats::new(1)?;
        let late = Caller {
            thread: NOBODY,
            last: NONE,
        };
        assert_eq!(seats.of_or_free(late), 1);
        assert_eq!(seats.entering(late), Err(Refusal::TOO_MANY_THREADS));
        Ok(())
    }
}
