//! The owner of a drain's handle.
use super::{
    span_drain_counts, span_drain_free, span_drain_line, span_drain_note, span_drain_skip_batch, SpanDrain, SpanField,
    SpanNote, OK, SHORT_BUFFER,
};

/// What stands next in a drain.
pub(crate) enum Next {
    /// A line of this layer, of so many bytes.
    Line { layer: u32, length: usize },
    /// A line of so many bytes, more than there was room for. It stays the next one.
    Long { length: usize },
    /// None now.
    None,
}

/// What stands next in a drain, where its note is read in the line's place.
pub(crate) enum NextNote {
    /// A note of so many fields and bytes.
    Note {
        note: SpanNote,
        fields: usize,
        bytes: usize,
    },
    /// A note of so many fields and bytes, of one of which there are more than there was room for. It stays the next one.
    Long {
        note: SpanNote,
        fields: usize,
        bytes: usize,
    },
    /// None now.
    None,
}

/// The end from which lines are read. It is full until it is dropped.
pub(crate) struct Lines {
    handle: SpanDrain,
}

// SAFETY: the header says that a drain may be used in another thread than its registry. It has one call at a time,
// since each takes it as `&mut`.
unsafe impl Send for Lines {}

impl Lines {
    pub(super) fn of(handle: SpanDrain) -> Lines {
        Lines { handle }
    }

    /// Reads the next line into the beginning of `into`.
    pub(crate) fn next(&mut self, into: &mut [u8]) -> Next {
        let (mut layer, mut length) = (0, 0);
        // SAFETY: the handle is full and lent to this call alone, as are `layer`, `length` and the bytes of `into`.
        let status =
            unsafe { span_drain_line(&mut self.handle, &mut layer, into.as_mut_ptr(), into.len(), &mut length) };
        match status {
            OK => Next::Line { layer, length },
            SHORT_BUFFER => Next::Long { length },
            _ => Next::None,
        }
    }

    /// Reads the note of the next line: the lengths of its fields, and its texts, which are the path, the message, then
    /// each key and value, into the beginning of `fields` and `texts`.
    pub(crate) fn next_note(&mut self, fields: &mut [SpanField], texts: &mut [u8]) -> NextNote {
        let (mut note, mut count, mut bytes) = (SpanNote::default(), 0, 0);
        // SAFETY: the handle is full and lent to this call alone, as are the numbers, the fields and the bytes of
        // `texts`; nothing that is written overlaps anything else.
        let status = unsafe {
            span_drain_note(
                &mut self.handle,
                &mut note,
                fields.as_mut_ptr(),
                fields.len(),
                &mut count,
                texts.as_mut_ptr(),
                texts.len(),
                &mut bytes,
            )
        };
        match status {
            OK => NextNote::Note {
                note,
                fields: count,
                bytes,
            },
            SHORT_BUFFER => NextNote::Long {
                note,
                fields: count,
                bytes,
            },
            _ => NextNote::None,
        }
    }

    /// The numbers of the next line's note, which stays the next one; none where there is none now.
    #[inline]
    pub(crate) fn peek_note(&mut self) -> Option<SpanNote> {
        // Each has a byte at least, for which there is no room.
        match self.next_note(&mut [], &mut []) {
            NextNote::Long { note, .. } => Some(note),
            _ => None,
        }
    }

    /// Gives up the lines that are left of the batch whose lines are at hand, or of the next one that has some. How many
    /// they were; 0 where there is none.
    #[cfg_attr(not(test), allow(dead_code))]
    pub(crate) fn skip_batch(&mut self) -> usize {
        let mut skipped = 0;
        // SAFETY: the handle is full and lent to this call alone, and `skipped` is this call's.
        let status = unsafe { span_drain_skip_batch(&mut self.handle, &mut skipped) };
        debug_assert!(status == OK || skipped == 0);
        skipped
    }

    /// How many batches were taken, and how many notes were missed for want of memory.
    pub(crate) fn counts(&mut self) -> (u64, u64) {
        let (mut batches, mut missed) = (0, 0);
        // SAFETY: the handle is full and lent to this call alone, and both numbers are this call's.
        let status = unsafe { span_drain_counts(&mut self.handle, &mut batches, &mut missed) };
        debug_assert_eq!(status, OK);
        (batches, missed)
    }
}

impl Drop for Lines {
    fn drop(&mut self) {
        // SAFETY: the handle is full, lent to this call alone, and not used again.
        let status = unsafe { span_drain_free(&mut self.handle) };
        debug_assert_eq!(status, OK);
    }
}
