//! What the program's calls lost: `tracing` can be answered no error.
#![forbid(unsafe_code)]
use span_registry::Error;
use std::fmt;
use std::sync::atomic::{AtomicU64, Ordering};

const REASONS_COUNT: usize = 7;
/// Why a call by an id may be refused; whatever else it is stands last.
static REASONS: [(&str, Error); REASONS_COUNT] = [
    ("unknown", Error::Unknown),
    ("count_full", Error::CountFull),
    ("not_entered", Error::NotEntered),
    ("backlog", Error::Backlog),
    ("out_of_memory", Error::OutOfMemory),
    ("too_many_threads", Error::TooManyThreads),
    ("other", Error::BadData),
];

fn place_of(reason: &Error) -> usize {
    REASONS.iter().position(|(_, known)| known == reason).unwrap_or(REASONS_COUNT - 1)
}

/// The calls by ids that were refused. The package counts those that make spans and tell events.
#[derive(Default)]
pub(crate) struct Losses([AtomicU64; REASONS_COUNT]);

impl Losses {
    #[cold]
    pub(crate) fn lose(&self, reason: &Error) {
        self.0[place_of(reason)].fetch_add(1, Ordering::Relaxed);
    }

    /// With what the package counted.
    pub(crate) fn so_far(&self, made: span_registry::Lost) -> Lost {
        let by_id = self.0.each_ref().map(|count| count.load(Ordering::Relaxed));
        Lost { made, by_id }
    }
}

/// What was lost, by reason: the calls of `tracing` that were refused, and the lines that were thrown away unread.
///
/// Its text is `unknown=2 backlog=1`, or `nothing`.
#[derive(Clone, Copy, Debug, PartialEq, Eq)]
pub struct Lost {
    made: span_registry::Lost,
    by_id: [u64; REASONS_COUNT],
}

impl Lost {
    /// The calls of all reasons.
    #[must_use]
    pub fn calls(&self) -> u64 {
        self.made.calls() + self.by_id.iter().sum::<u64>()
    }

    /// The lines that were thrown away.
    #[must_use]
    pub fn lines(&self) -> u64 {
        self.made.lines()
    }

    /// The calls of this reason. [`Unknown`](Error::Unknown) and [`NotEntered`](Error::NotEntered) are misuse: an id
    /// that was given back too often, a span that was left and not entered.
    #[must_use]
    pub fn by(&self, reason: &Error) -> u64 {
        self.made.by(reason) + self.by_id[place_of(reason)]
    }

    /// Whether nothing was lost.
    #[must_use]
    pub fn is_nothing(&self) -> bool {
        self.calls() == 0 && self.lines() == 0
    }

    /// Each reason for which calls were lost, by its name, and the lines as `lines`.
    #[must_use]
    pub fn reasons(&self) -> Vec<(&'static str, u64)> {
        let mut all: Vec<(&'static str, u64)> = self.made.reasons().collect();
        for (&(name, _), count) in REASONS.iter().zip(self.by_id) {
            match all.iter_mut().find(|(known, _)| *known == name) {
                Some((_, sum)) => *sum += count,
                None => all.push((name, count)),
            }
        }
        all.retain(|&(_, count)| count > 0);
        all
    }
}

impl fmt::Display for Lost {
    fn fmt(&self, f: &mut fmt::Formatter<'_>) -> fmt::Result {
        let reasons: Vec<String> = self.reasons().iter().map(|(name, count)| format!("{name}={count}")).collect();
        f.write_str(if reasons.is_empty() { "nothing" } else { "" })?;
        f.write_str(&reasons.join(" "))
    }
}

#[cfg(test)]
mod tests {
    use super::{Losses, REASONS};
    use span_registry::Error;

    #[test]
    fn losses_are_counted_by_reason() {
        let losses = Losses::default();
        assert_eq!(losses.so_far(Default::default()).to_string(), "nothing");
        for (at, (_, reason)) in REASONS.iter().enumerate() {
            (0..=at).for_each(|_| losses.lose(reason));
        }
        losses.lose(&Error::Full);
        let lost = losses.so_far(Default::default());
        assert_eq!((lost.calls(), lost.by(&Error::NotEntered), lost.by(&Error::Full)), (29, 3, 8));
        assert!(lost.to_string().starts_with("unknown=1 count_full=2 not_entered=3 "), "{lost}");
        assert!(!lost.is_nothing());
    }
}
