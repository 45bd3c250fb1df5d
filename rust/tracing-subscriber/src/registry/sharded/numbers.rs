//! The numbers of registries, which stand in their ids, so that no id of one is an id of another.
use std::sync::{Mutex, MutexGuard, PoisonError};

/// Numbers are from 1 to this one.
pub(super) const GREATEST: u64 = (1 << 13) - 1;
const COUNT: usize = GREATEST as usize;

struct Numbers {
    last: u64,
    // Those of registries that are gone, as a ring: they are given again after all others, the oldest first.
    freed: [u16; COUNT],
    oldest: usize,
    count: usize,
}

static NUMBERS: Mutex<Numbers> = Mutex::new(Numbers { last: 0, freed: [0; COUNT], oldest: 0, count: 0 });

fn numbers() -> MutexGuard<'static, Numbers> {
    NUMBERS.lock().unwrap_or_else(PoisonError::into_inner)
}

/// A number that no registry has now; none where as many as there are numbers live.
pub(super) fn next() -> Option<u64> {
    let mut numbers = numbers();
    if numbers.last < GREATEST {
        numbers.last += 1;
        return Some(numbers.last);
    }
    numbers.count = numbers.count.checked_sub(1)?;
    let number = numbers.freed[numbers.oldest];
    numbers.oldest = (numbers.oldest + 1) % COUNT;
    Some(u64::from(number))
}

/// Takes no memory: there is room for each number, and each is given back once.
pub(super) fn give_back(number: u64) {
    let mut numbers = numbers();
    let at = (numbers.oldest + numbers.count) % COUNT;
    numbers.freed[at] = number as u16;
    numbers.count += 1;
}
