//! Programs that do what they shouldn't: nothing that they do is undefined, breaks a promise, or goes on for ever.
//!
//! Where there is valgrind, `memcheck` runs them once more under it, with smaller numbers.
mod carrying;
#[path = "../common/mod.rs"]
mod common;
mod edges;
mod memcheck;
mod misuse;
mod outliving;
mod threads;
mod values;

use std::env;

/// Set where valgrind runs this.
const UNDER_MEMCHECK: &str = "SPAN_REGISTRY_UNDER_MEMCHECK";

/// So many; fewer under valgrind, which takes fifty times as long.
fn many(count: u32) -> u32 {
    if env::var_os(UNDER_MEMCHECK).is_some() {
        count.div_ceil(100)
    } else {
        count
    }
}

/// Numbers at random.
struct Random(u64);

impl Random {
    fn next(&mut self) -> u64 {
        self.0 ^= self.0 << 13;
        self.0 ^= self.0 >> 7;
        self.0 ^= self.0 << 17;
        self.0
    }

    fn below(&mut self, bound: u64) -> u64 {
        (self.next() >> 33) % bound
    }
}
