//! What the tests of `ProvedSubscriber` share.
#![allow(dead_code)]
use span_registry::{Drain, Layer};
use std::sync::{Mutex, MutexGuard, PoisonError};
use tracing::Dispatch;
use tracing_span_registry::{ProvedSubscriber, SubscriberBuilder};

/// Held by each test to its end: see `layers.rs`.
pub fn alone() -> MutexGuard<'static, ()> {
    static ALONE: Mutex<()> = Mutex::new(());
    ALONE.lock().unwrap_or_else(PoisonError::into_inner)
}

/// As many, or fewer under valgrind, where a call takes fifty times as long.
pub fn many(most: usize) -> usize {
    if std::env::var_os("SPAN_REGISTRY_UNDER_MEMCHECK").is_some() {
        (most / 16).max(2)
    } else {
        most
    }
}

pub fn compact() -> SubscriberBuilder {
    ProvedSubscriber::builder().layer(Layer::compact())
}

/// What the builder builds, as a dispatcher too.
pub fn over(builder: SubscriberBuilder) -> (ProvedSubscriber, Dispatch, Drain) {
    let (subscriber, drain) = builder.build().expect("it fits");
    let dispatch = Dispatch::new(subscriber.clone());
    (subscriber, dispatch, drain)
}

/// The lines that weren't read yet.
pub fn texts(drain: &mut Drain) -> Vec<String> {
    drain.lines().map(|line| line.text).collect()
}

/// Nothing is open, held or owed.
pub fn assert_closed(subscriber: &ProvedSubscriber) {
    let counts = subscriber.registry().counts();
    assert_eq!((counts.open, counts.held, counts.owed), (0, 0, 0), "{counts:?}");
}

/// Nothing is lost either.
pub fn assert_clean(subscriber: &ProvedSubscriber) {
    assert_closed(subscriber);
    assert!(subscriber.lost().is_nothing(), "{}", subscriber.lost());
}
