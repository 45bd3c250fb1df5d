//! What was lost by the calls that answer no error, by reason.
#![forbid(unsafe_code)]
use crate::error::Error;
use crate::registry::Registry;
use std::fmt;
use std::sync::atomic::{AtomicBool, AtomicU64, Ordering};

/// The target of the events at `WARN` by which the registry tells of itself.
pub(crate) const TARGET: &str = "span_registry";

const REASONS: [&str; 9] = [
    "unknown",
    "count_full",
    "full",
    "bad_name",
    "backlog",
    "out_of_memory",
    "too_many_threads",
    "other_registry",
    "other",
];

fn place_of(reason: &Error) -> usize {
    match reason {
        Error::Unknown => 0,
        Error::CountFull => 1,
        Error::Full => 2,
        Error::BadName(_) => 3,
        Error::Backlog => 4,
        Error::OutOfMemory => 5,
        Error::TooManyThreads => 6,
        Error::OtherRegistry => 7,
        _ => 8,
    }
}

/// What was lost: refused calls, by reason, of [`span!`](crate::span), [`event!`](crate::event),
/// [`record!`](crate::record) and the methods of [`Span`](crate::Span) that answer no error, and lines that were thrown
/// away unread.
///
/// Layers that admit `WARN` of the target `span_registry` are told of what is new, once there is room again, as an
/// event `lost` with a field for each reason, by a worker that is no thread: `event 0 w256 - WARN lost backlog=3`.
#[derive(Clone, Copy, Debug, Default, PartialEq, Eq, Hash)]
pub struct Lost {
    calls: [u64; REASONS.len()],
    lines: u64,
}

impl Lost {
    /// The calls of all reasons.
    #[must_use]
    pub fn calls(&self) -> u64 {
        self.calls.iter().sum()
    }

    /// The lines that were thrown away, as [`OnFull`](crate::OnFull) says, or because the drain was dropped.
    #[must_use]
    pub fn lines(&self) -> u64 {
        self.lines
    }

    /// Whether nothing was lost.
    #[must_use]
    pub fn is_nothing(&self) -> bool {
        *self == Lost::default()
    }

    /// The calls of this reason. Those that no such call has are counted together.
    #[must_use]
    pub fn by(&self, reason: &Error) -> u64 {
        self.calls[place_of(reason)]
    }

    /// Each reason for which calls were lost, by its name, and the lines as `lines`.
    pub fn reasons(&self) -> impl Iterator<Item = (&'static str, u64)> {
        let all = REASONS.into_iter().zip(self.calls).chain([("lines", self.lines)]);
        all.filter(|&(_, count)| count > 0)
    }

    /// What was lost since `before`, which was told earlier.
    pub(crate) fn since(&self, before: &Lost) -> Lost {
        let mut lost = *self;
        for (number, before) in lost.calls.iter_mut().zip(before.calls) {
            *number -= before;
        }
        lost.lines -= before.lines;
        lost
    }
}

/// `full=1 backlog=3`, or `nothing`.
impl fmt::Display for Lost {
    fn fmt(&self, f: &mut fmt::Formatter<'_>) -> fmt::Result {
        if self.is_nothing() {
            return f.write_str("nothing");
        }
        for (place, (reason, count)) in self.reasons().enumerate() {
            let blank = if place == 0 { "" } else { " " };
            write!(f, "{blank}{reason}={count}")?;
        }
        Ok(())
    }
}

/// The counters. They need no lock and no memory.
#[derive(Default)]
pub(crate) struct Losses {
    counts: [AtomicU64; REASONS.len()],
    lines: AtomicU64,
    // Whether something was lost since that was last told.
    is_untold: AtomicBool,
}

impl Losses {
    #[cold]
    fn lose(&self, reason: &Error) {
        self.counts[place_of(reason)].fetch_add(1, Ordering::Relaxed);
        self.is_untold.store(true, Ordering::Release);
    }

    /// A line was thrown away.
    pub(crate) fn lose_line(&self) {
        self.lines.fetch_add(1, Ordering::Relaxed);
        self.is_untold.store(true, Ordering::Release);
    }

    /// What was lost so far.
    pub(crate) fn so_far(&self) -> Lost {
        let mut lost = Lost {
            lines: self.lines.load(Ordering::Relaxed),
            ..Lost::default()
        };
        for (number, count) in lost.calls.iter_mut().zip(&self.counts) {
            *number = count.load(Ordering::Relaxed);
        }
        lost
    }

    #[inline]
    pub(crate) fn is_untold(&self) -> bool {
        self.is_untold.load(Ordering::Acquire)
    }

    pub(crate) fn set_untold(&self, is_untold: bool) {
        self.is_untold.store(is_untold, Ordering::Release);
    }
}

/// What the macros and spans call, which answer no error.
impl Registry {
    /// What was lost so far. It takes no lock.
    #[must_use]
    pub fn lost(&self) -> Lost {
        self.parts().common().losses().so_far()
    }

    /// The answer of a call; none where it was refused, which is counted.
    pub(crate) fn or_lost<T>(&self, result: Result<T, Error>) -> Option<T> {
        result
            .map_err(|reason| self.parts().common().losses().lose(&reason))
            .ok()
    }
}

#[cfg(test)]
mod tests {
    use super::{Losses, Lost, REASONS};
    use crate::error::Error;
    use crate::Registry;

    #[test]
    fn losses_are_counted_by_reason() -> Result<(), Error> {
        let (registry, _drain) = Registry::builder().build()?;
        assert_eq!(
            (registry.lost(), registry.lost().to_string()),
            (Lost::default(), "nothing".to_owned())
        );
        let reasons = [
            Error::Unknown,
            Error::CountFull,
            Error::Full,
            Error::bad_name("a b"),
            Error::Backlog,
            Error::OutOfMemory,
            Error::TooManyThreads,
            Error::OtherRegistry,
            Error::BadData,
        ];
        for (place, reason) in reasons.iter().enumerate() {
            for _ in 0..=place {
                assert_eq!(registry.or_lost::<()>(Err(reason.clone())), None);
            }
        }
        let lost = registry.lost();
        for (place, (reason, count)) in reasons.iter().zip(1..).enumerate() {
            assert_eq!((lost.by(reason), lost.calls[place]), (count, count));
        }
        assert_eq!(lost.calls(), 45);
        assert_eq!(lost.reasons().map(|(name, _)| name).collect::<Vec<_>>(), REASONS);
        assert!(lost.to_string().starts_with("unknown=1 count_full=2 full=3 "));
        Ok(())
    }

    #[test]
    fn what_is_new_is_told() {
        let losses = Losses::default();
        assert!(!losses.is_untold());
        losses.lose(&Error::Full);
        (0..3).for_each(|_| losses.lose_line());
        let before = losses.so_far();
        losses.set_untold(false);
        losses.lose(&Error::Full);
        losses.lose(&Error::Backlog);
        (0..2).for_each(|_| losses.lose_line());
        assert!(losses.is_untold());
        assert_eq!(losses.so_far().since(&before).to_string(), "full=1 backlog=1 lines=2");
    }

    #[test]
    fn each_thread_counts() {
        let losses = Losses::default();
        std::thread::scope(|scope| {
            for _ in 0..4 {
                scope.spawn(|| (0..1000).for_each(|_| losses.lose(&Error::Full)));
            }
        });
        assert_eq!(losses.so_far().by(&Error::Full), 4000);
    }
}
