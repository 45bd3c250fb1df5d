//! Texts as the C interface takes them: one after another, with their lengths beside them.
#![forbid(unsafe_code)]
use crate::meta::Fields;
use crate::raw::{Short, SpanField, FEW};
use crate::refusal::Refusal;
use std::cell::Cell;

/// A buffer of texts that grew past this is given back before the next call.
const KEPT: usize = 8 * 1024;
/// The same of one of fields.
const KEPT_FIELDS: usize = KEPT / 16;

/// How many bytes the name and the target take before the fields.
#[derive(Clone, Copy, Debug, PartialEq, Eq)]
pub(crate) struct Names {
    pub(crate) name: usize,
    pub(crate) target: usize,
}

impl Names {
    pub(crate) fn bytes(self) -> usize {
        self.name + self.target
    }
}

/// The packed texts of a call: what comes first, then the keys and values.
#[derive(Clone, Copy)]
pub(crate) struct Texts<'a> {
    pub(crate) fields: &'a [SpanField],
    pub(crate) bytes: &'a [u8],
}

impl<'a> Texts<'a> {
    // A text with no fields behind it stands as it is.
    #[inline(always)]
    fn of_one(text: &'a str) -> Texts<'a> {
        Texts {
            fields: &[],
            bytes: text.as_bytes(),
        }
    }
}

thread_local! {
    // The memory of the last call whose texts were long.
    static LONG: Cell<Packed> = Cell::default();
}

/// Makes a call with `first` and the keys and values, packed before it: so that is done under no lock. Where they are few
/// and short it takes no memory but the stack, and where they are one text at most, none.
#[inline(always)]
pub(crate) fn packed<T>(
    first: &[&str],
    fields: Fields<'_>,
    call: impl FnOnce(Texts<'_>) -> Result<T, Refusal>,
) -> Result<T, Refusal> {
    let mut short = Short::new();
    let mut long = None;
    let texts = match (first, fields) {
        ([], []) => Texts::of_one(""),
        ([text], []) => Texts::of_one(text),
        _ => match pack_short(&mut short, first, fields) {
            Some(texts) => texts,
            None => Packed::with_long(&mut long, first, fields)?,
        },
    };
    let answer = call(texts);
    if let Some(long) = long {
        long.keep();
    }
    answer
}

// Packs them where there is room for them.
#[inline(always)]
fn pack_short<'a>(short: &'a mut Short, first: &[&str], fields: Fields<'_>) -> Option<Texts<'a>> {
    if fields.len() > FEW {
        return None;
    }
    let mut filling = short.fill();
    for text in first {
        filling.push(text)?;
    }
    for (key, value) in fields {
        filling.push_field(key, value)?;
    }
    let (fields, bytes) = filling.filled();
    Some(Texts { fields, bytes })
}

/// The texts of one call, or of what one says. Its memory is used again for the next call.
#[derive(Default)]
pub(crate) struct Packed {
    fields: Vec<SpanField>,
    texts: Vec<u8>,
}

impl Packed {
    /// Packs `first`, then the keys and values.
    #[inline(always)]
    pub(crate) fn pack(&mut self, first: &[&str], fields: Fields<'_>) -> Result<(), Refusal> {
        self.give_back();
        self.texts.clear();
        self.fields.clear();
        for text in first {
            self.push(text)?;
        }
        reserve(&mut self.fields, fields.len())?;
        for (key, value) in fields {
            self.fields.push(SpanField {
                key_len: length(key)?,
                value_len: length(value)?,
            });
            self.push(key)?;
            self.push(value)?;
        }
        Ok(())
    }

    // Texts of any length, in memory that is to be kept after the call. (A thread that ends may have none.)
    #[cold]
    #[inline(never)]
    fn with_long<'a>(long: &'a mut Option<Packed>, first: &[&str], fields: Fields<'_>) -> Result<Texts<'a>, Refusal> {
        let long = long.insert(LONG.try_with(Cell::take).unwrap_or_default());
        long.pack(first, fields)?;
        Ok(Texts {
            fields: &long.fields,
            bytes: &long.texts,
        })
    }

    #[cold]
    #[inline(never)]
    fn keep(mut self) {
        self.give_back();
        let _is_kept = LONG.try_with(|kept| kept.set(self));
    }

    /// Its memory, where that has grown past what is kept.
    #[inline(always)]
    pub(crate) fn give_back(&mut self) {
        if self.texts.capacity() > KEPT || self.fields.capacity() > KEPT_FIELDS {
            *self = Packed::default();
        }
    }

    #[inline]
    fn push(&mut self, text: &str) -> Result<(), Refusal> {
        reserve(&mut self.texts, text.len())?;
        self.texts.extend_from_slice(text.as_bytes());
        Ok(())
    }

    /// The buffers, for what the interface says. Each has room for what stands in it.
    pub(crate) fn room(&mut self) -> (&mut [SpanField], &mut [u8]) {
        (&mut self.fields, &mut self.texts)
    }

    /// Room for so many fields and bytes.
    pub(crate) fn grow(&mut self, fields: usize, bytes: usize) -> Result<(), Refusal> {
        self.fields.clear();
        self.texts.clear();
        reserve(&mut self.fields, fields)?;
        reserve(&mut self.texts, bytes)?;
        self.fields.resize(fields, SpanField::default());
        self.texts.resize(bytes, 0);
        Ok(())
    }

    /// So many fields and bytes are what was said.
    pub(crate) fn truncate(&mut self, fields: usize, bytes: usize) {
        self.fields.truncate(fields);
        self.texts.truncate(bytes);
    }

    pub(crate) fn fields(&self) -> &[SpanField] {
        &self.fields
    }

    pub(crate) fn texts(&self) -> &[u8] {
        &self.texts
    }
}

/// The length of a text, which the interface takes in 32 bits.
pub(crate) fn length(text: &str) -> Result<u32, Refusal> {
    u32::try_from(text.len()).map_err(|_| Refusal::BAD_DATA)
}

/// Room for so many more, or want of memory.
#[inline(always)]
pub(crate) fn reserve<T>(list: &mut Vec<T>, more: usize) -> Result<(), Refusal> {
    if more <= list.capacity() - list.len() {
        Ok(())
    } else {
        grow(list, more)
    }
}

// What happens seldom isn't among what always does.
#[cold]
#[inline(never)]
fn grow<T>(list: &mut Vec<T>, more: usize) -> Result<(), Refusal> {
    list.try_reserve(more).map_err(|_| Refusal::OUT_OF_MEMORY)
}

/// A text's copy, or want of memory.
pub(crate) fn copied(text: &str) -> Result<String, Refusal> {
    let mut copy = String::new();
    copy.try_reserve_exact(text.len()).map_err(|_| Refusal::OUT_OF_MEMORY)?;
    copy.push_str(text);
    Ok(copy)
}

#[cfg(test)]
mod tests {
    use super::{packed, Packed, FEW, KEPT, LONG};
    use crate::raw::SHORT;
    use crate::refusal::Refusal;

    #[test]
    fn short_and_long_texts_are_packed_alike() {
        let text = "x".repeat(KEPT * 2);
        let pairs: Vec<(&str, &str)> = (0..FEW + 2).map(|len| ("k", &text[..len])).collect();
        for fields in [&pairs[..0], &pairs[..FEW], &pairs[..=FEW], &pairs[..]] {
            for len in [0, 1, SHORT - 50, SHORT - 1, SHORT, SHORT + 1, KEPT * 2] {
                let both = ["name", &text[..len]];
                for first in [&both[..], &both[1..], &[]] {
                    let mut wanted = Packed::default();
                    wanted.pack(first, fields).unwrap();
                    let said = packed(first, fields, |texts| Ok((texts.fields.to_vec(), texts.bytes.to_vec())));
                    assert_eq!(said, Ok((wanted.fields().to_vec(), wanted.texts().to_vec())));
                    // What was long isn't kept where it is very long.
                    let kept = LONG.take();
                    assert!(kept.texts.capacity() <= KEPT);
                    LONG.set(kept);
                }
            }
        }
        assert_eq!(
            packed(&[], &[], |_| Err::<(), _>(Refusal::BACKLOG)),
            Err(Refusal::BACKLOG)
        );
    }

    #[test]
    fn texts_stand_one_after_another() {
        let mut packed = Packed::default();
        packed
            .pack(&["name", "target"], &[("k", "value"), ("key", "")])
            .unwrap();
        assert_eq!(packed.texts(), b"nametargetkvaluekey");
        let lengths: Vec<_> = packed
            .fields()
            .iter()
            .map(|field| (field.key_len, field.value_len))
            .collect();
        assert_eq!(lengths, [(1, 5), (3, 0)]);
        packed.pack(&[], &[]).unwrap();
        assert_eq!((packed.texts().len(), packed.fields().len()), (0, 0));
    }

    #[test]
    fn a_long_text_keeps_no_memory() {
        let mut packed = Packed::default();
        packed.pack(&[&"x".repeat(KEPT * 4)], &[]).unwrap();
        packed.pack(&["x"], &[]).unwrap();
        assert!(packed.texts.capacity() <= KEPT);
    }

    #[test]
    fn what_is_said_takes_the_place_of_what_was_packed() {
        let mut packed = Packed::default();
        packed.pack(&["name"], &[("k", "value")]).unwrap();
        packed.grow(3, 40).unwrap();
        let (fields, texts) = packed.room();
        assert_eq!((fields.len(), texts.len()), (3, 40));
        texts[..4].copy_from_slice(b"name");
        packed.truncate(0, 4);
        assert_eq!((packed.texts(), packed.fields().len()), (&b"name"[..], 0));
        packed.grow(0, KEPT * 4).unwrap();
        packed.give_back();
        assert_eq!((packed.texts.capacity(), packed.texts().len()), (0, 0));
        for (fields, bytes) in [(usize::MAX, 0), (0, usize::MAX)] {
            assert_eq!(packed.grow(fields, bytes), Err(Refusal::OUT_OF_MEMORY));
        }
        packed.pack(&["name"], &[]).unwrap();
        assert_eq!(packed.texts(), b"name");
    }
}
