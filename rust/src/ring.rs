//! The other end of the ring: who reads it, and what a call does that finds it full.
#![forbid(unsafe_code)]
use crate::lost::Losses;
use crate::notes::Notes;
use crate::raw::{Lines, Next};
use crate::stamps::Stamps;
use std::sync::atomic::{AtomicBool, Ordering};
use std::sync::{Arc, Mutex, MutexGuard, PoisonError};

/// What a call does that finds the ring full.
///
/// Whatever it is, no call is refused for it once the [`Drain`](crate::Drain) was dropped: lines are thrown away then,
/// and counted by [`Lost::lines`](crate::Lost::lines).
#[derive(Clone, Copy, Debug, Default, PartialEq, Eq, Hash)]
pub enum OnFull {
    /// It is refused as [`Backlog`](crate::Error::Backlog). The default where the drain is the program's.
    #[default]
    Refuse,
    /// The lines of the oldest call are thrown away, and counted by [`Lost::lines`](crate::Lost::lines); so is a line of
    /// a layer in the form of trees that is just being read, where what is kept beside it goes with them.
    DropOldest,
    /// It waits until a line was read: for ever, where the drain is there and nobody reads it. The default where a
    /// writer was [spawned](crate::RegistryBuilder::spawn_writer). A call that the writing thread itself makes, as in
    /// its [`Write`](std::io::Write), is refused instead.
    Wait,
}

/// The lines that were sent and not read. Who has the lock of the registry may take this one, and never the other way
/// round.
pub(crate) struct Ring {
    lines: Mutex<Lines>,
    // Of layers in the form of trees.
    notes: Option<Notes>,
    // Where there are several parts whose lines are merged.
    stamps: Option<Stamps>,
    on_full: OnFull,
    // Whether the drain was dropped.
    is_unread: AtomicBool,
    losses: Arc<Losses>,
}

impl Ring {
    pub(crate) fn new(
        lines: Lines,
        notes: Option<Notes>,
        stamps: Option<Stamps>,
        on_full: OnFull,
        losses: Arc<Losses>,
    ) -> Ring {
        Ring {
            lines: Mutex::new(lines),
            notes,
            stamps,
            on_full,
            is_unread: AtomicBool::new(false),
            losses,
        }
    }

    /// No code of the program's runs under this lock.
    pub(crate) fn lines(&self) -> MutexGuard<'_, Lines> {
        self.lines.lock().unwrap_or_else(PoisonError::into_inner)
    }

    /// What lines lack that are read as notes; none where no layer asks for it.
    #[inline]
    pub(crate) fn notes(&self) -> Option<&Notes> {
        self.notes.as_ref()
    }

    /// Those of its batches; none where nothing is merged by them.
    #[inline]
    pub(crate) fn stamps(&self) -> Option<&Stamps> {
        self.stamps.as_ref()
    }

    /// From now on nobody reads.
    pub(crate) fn is_left(&self) {
        self.is_unread.store(true, Ordering::Release);
    }

    pub(crate) fn is_unread(&self) -> bool {
        self.is_unread.load(Ordering::Acquire)
    }

    /// Whether a call that finds the ring full waits for a place.
    pub(crate) fn waits(&self) -> bool {
        self.on_full == OnFull::Wait && !self.is_unread()
    }

    /// Throws lines away where they may be lost: all where nobody reads, else the oldest batch's. Whether there is a
    /// place now.
    pub(crate) fn makes_place(&self) -> bool {
        let all = self.is_unread();
        if !all && self.on_full != OnFull::DropOldest {
            return false;
        }
        let has_place = self.throw_lines(all);
        if let Some(notes) = &self.notes {
            let (taken, _) = self.lines().counts();
            // A reader that took a line out just now finds that what was kept of it is gone, and loses that line.
            notes.book().goes_to(taken);
        }
        has_place
    }

    fn throw_lines(&self, all: bool) -> bool {
        let mut lines = self.lines();
        let (before, _) = lines.counts();
        let (mut short, mut long) = ([0; 256], Vec::new());
        while all || lines.counts().0 == before {
            let into: &mut [u8] = if long.is_empty() { &mut short } else { &mut long };
            match lines.next(into) {
                Next::Line { .. } => self.losses.lose_line(),
                Next::Long { length } if long.try_reserve(length).is_ok() => long.resize(length, 0),
                // Its batch may have been taken out before.
                Next::Long { .. } => return lines.counts().0 > before,
                // The ring is empty.
                Next::None => return true,
            }
        }
        true
    }
}
