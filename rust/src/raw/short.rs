//! The texts of a call on the caller's stack, where they are few and short.
use super::SpanField;
use std::mem::MaybeUninit;
use std::slice;

/// There is room for so many bytes.
pub(crate) const SHORT: usize = 192;
/// For so many fields.
pub(crate) const FEW: usize = 6;

/// The room. Nothing is written to it but what fills it, since to clear it takes longer than to fill a part.
pub(crate) struct Short {
    fields: [MaybeUninit<SpanField>; FEW],
    bytes: [MaybeUninit<u8>; SHORT],
}

/// What fills it, from its begin on.
pub(crate) struct Filling<'a> {
    room: &'a mut Short,
    // How many of each are written, with no gap: what `filled` shows.
    fields: usize,
    bytes: usize,
}

impl Short {
    #[inline(always)]
    pub(crate) const fn new() -> Short {
        Short {
            fields: [MaybeUninit::uninit(); FEW],
            bytes: [MaybeUninit::uninit(); SHORT],
        }
    }

    /// Nothing fills it yet.
    #[inline(always)]
    pub(crate) fn fill(&mut self) -> Filling<'_> {
        Filling {
            room: self,
            fields: 0,
            bytes: 0,
        }
    }
}

impl<'a> Filling<'a> {
    /// Puts a text behind the others, where there is room. Its length.
    #[inline(always)]
    pub(crate) fn push(&mut self, text: &str) -> Option<u32> {
        let left = self.room.bytes.get_mut(self.bytes..)?;
        let into = left.get_mut(..text.len())?.as_mut_ptr();
        // SAFETY: `into` has room for so many bytes, and nothing else refers to it.
        unsafe { into.cast::<u8>().copy_from_nonoverlapping(text.as_ptr(), text.len()) };
        self.bytes += text.len();
        // At most SHORT.
        Some(text.len() as u32)
    }

    /// The same of a key and a value.
    #[inline(always)]
    pub(crate) fn push_field(&mut self, key: &str, value: &str) -> Option<()> {
        let field = SpanField {
            key_len: self.push(key)?,
            value_len: self.push(value)?,
        };
        self.room.fields.get_mut(self.fields)?.write(field);
        self.fields += 1;
        Some(())
    }

    /// What was put there.
    #[inline(always)]
    pub(crate) fn filled(self) -> (&'a [SpanField], &'a [u8]) {
        // SAFETY: so many fields are written, one after another.
        let fields = unsafe { slice::from_raw_parts(self.room.fields.as_ptr().cast(), self.fields) };
        // SAFETY: so many bytes are written, one after another.
        let bytes = unsafe { slice::from_raw_parts(self.room.bytes.as_ptr().cast(), self.bytes) };
        (fields, bytes)
    }
}
