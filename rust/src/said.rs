//! A note as the proved registry tells it: numbers, and texts one after another.
#![forbid(unsafe_code)]
use crate::raw::{Lines, NextNote, SpanField, SpanNote};
use std::borrow::Cow;

/// Room for the fields and the bytes of most notes.
const FIELDS: usize = 8;
const BYTES: usize = 256;

/// The note that was read last, in memory that is used for the next one.
#[derive(Default)]
pub(crate) struct Said {
    note: SpanNote,
    // How many fields and bytes it has.
    count: usize,
    bytes: usize,
    // These are as long as there is room for fields and texts, and theirs stand at the beginning.
    fields: Vec<SpanField>,
    texts: Vec<u8>,
}

impl Said {
    /// Reads the note of the next line. Whether there is one.
    #[inline]
    pub(crate) fn read(&mut self, lines: &mut Lines) -> bool {
        loop {
            match lines.next_note(&mut self.fields, &mut self.texts) {
                NextNote::Note { note, fields, bytes } => {
                    (self.note, self.count, self.bytes) = (note, fields, bytes);
                    return true;
                }
                NextNote::Long { fields, bytes, .. } => self.grow(fields, bytes),
                NextNote::None => return false,
            }
        }
    }

    #[cold]
    fn grow(&mut self, fields: usize, bytes: usize) {
        let fields = self.fields.len().max(fields).max(FIELDS);
        self.fields.resize(fields, SpanField::default());
        self.texts.resize(self.texts.len().max(bytes).max(BYTES), 0);
    }

    /// Its numbers.
    #[inline]
    pub(crate) fn note(&self) -> &SpanNote {
        &self.note
    }

    /// How many bytes its texts take in a line, where none is escaped.
    pub(crate) fn room(&self) -> usize {
        // A field has four quotes, two brackets and two commas.
        self.bytes + 8 * self.count
    }

    /// How many fields it has.
    pub(crate) fn count(&self) -> usize {
        self.count
    }

    /// The names from the root on, with colons between them.
    #[inline]
    pub(crate) fn path(&self) -> &[u8] {
        &self.texts[..self.note.path_len as usize]
    }

    /// An event's.
    #[inline]
    pub(crate) fn message(&self) -> &[u8] {
        &self.texts[self.note.path_len as usize..][..self.note.message_len as usize]
    }

    /// Keys and values.
    #[inline]
    pub(crate) fn fields(&self) -> impl Iterator<Item = (&[u8], &[u8])> {
        let begin = self.note.path_len as usize + self.note.message_len as usize;
        let mut rest = &self.texts[begin..];
        self.fields[..self.count].iter().map(move |field| {
            let (key, behind) = rest.split_at(field.key_len as usize);
            let (value, behind) = behind.split_at(field.value_len as usize);
            rest = behind;
            (key, value)
        })
    }
}

/// What the library says is UTF-8.
pub(crate) fn text_of(said: &[u8]) -> Cow<'_, str> {
    // To look whether it is is quicker than to make it so.
    match std::str::from_utf8(said) {
        Ok(text) => Cow::Borrowed(text),
        Err(_) => String::from_utf8_lossy(said),
    }
}
