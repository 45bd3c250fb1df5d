//! What a registry is asked that its calls don't answer: whether anything listens, what was said of a span, and lists.
use super::{
    span_registry_callsite_wants, span_registry_details, span_registry_holders_of, span_registry_open_ids,
    span_registry_wants, span_registry_workers_inside, Core, SpanHeld, SpanMeta, SpanRegistry, SHORT_BUFFER,
};
use crate::level::Level;
use crate::meta::RawId;
use crate::packed::{reserve, Names, Packed};
use crate::refusal::Refusal;

/// How many values a list has room for at first.
const ROOM: usize = 16;

/// A list that a call of the interface fills: where it is longer than the room for it, its length is told. `call` is
/// given where the values go, how many there is room for, and where their number goes.
fn list<T: Copy + Default>(mut call: impl FnMut(*mut T, usize, *mut usize) -> u32) -> Result<Vec<T>, Refusal> {
    let (mut values, mut room) = (Vec::new(), ROOM);
    loop {
        values.clear();
        reserve(&mut values, room)?;
        values.resize(room, T::default());
        let mut length = 0;
        let status = call(values.as_mut_ptr(), values.len(), &mut length);
        if status != SHORT_BUFFER || length <= room {
            Refusal::of_status(status)?;
            values.truncate(length);
            return Ok(values);
        }
        room = length;
    }
}

/// What was answered of a span, with how many fields and bytes it has.
struct Said {
    status: u32,
    meta: SpanMeta,
    fields: usize,
    texts: usize,
}

impl Core {
    pub(super) fn handle(&mut self) -> *mut SpanRegistry {
        &mut self.handle
    }

    /// Whether some layer's rule admits what has this level and target.
    pub(crate) fn wants(&mut self, level: Level, target: &str) -> Result<bool, Refusal> {
        let mut wanted = 0;
        // SAFETY: the handle is full and lent to this call alone; the target and its length are those of a text, and the
        // output is a value of its own.
        let status = unsafe {
            span_registry_wants(
                self.handle(),
                level.verbosity(),
                target.as_ptr(),
                target.len(),
                &mut wanted,
            )
        };
        Refusal::of_status(status)?;
        Ok(wanted == 1)
    }

    /// The same of a callsite.
    pub(crate) fn callsite_wants(&mut self, callsite: u32) -> Result<bool, Refusal> {
        let mut wanted = 0;
        // SAFETY: the handle is full and lent to this call alone, and the output is a value of its own.
        let status = unsafe { span_registry_callsite_wants(self.handle(), callsite, &mut wanted) };
        Refusal::of_status(status)?;
        Ok(wanted == 1)
    }

    /// What was said of an open span comes into `into`: its name and its target, which are so long, and then each key
    /// and its value.
    pub(crate) fn details(&mut self, id: RawId, into: &mut Packed) -> Result<Names, Refusal> {
        let mut said = self.said(id, into);
        if said.status == SHORT_BUFFER {
            into.grow(said.fields, said.texts)?;
            said = self.said(id, into);
        }
        Refusal::of_status(said.status)?;
        into.truncate(said.fields, said.texts);
        Ok(Names {
            name: said.meta.name_len as usize,
            target: said.meta.target_len as usize,
        })
    }

    // The same, where `into` has room for it.
    fn said(&mut self, id: RawId, into: &mut Packed) -> Said {
        let (mut meta, mut fields_len, mut texts_len) = (SpanMeta::default(), 0, 0);
        let (fields, texts) = into.room();
        // SAFETY: the handle is full and lent to this call alone; both buffers are this call's, with their lengths, as
        // are the outputs.
        let status = unsafe {
            span_registry_details(
                self.handle(),
                id.get(),
                &mut meta,
                fields.as_mut_ptr(),
                fields.len(),
                &mut fields_len,
                texts.as_mut_ptr(),
                texts.len(),
                &mut texts_len,
            )
        };
        Said {
            status,
            meta,
            fields: fields_len,
            texts: texts_len,
        }
    }

    /// The ids of the open spans, by ascending slot.
    pub(crate) fn open_ids(&mut self) -> Result<Vec<u64>, Refusal> {
        let handle = self.handle();
        // SAFETY: the handle is full and lent to this call alone, and `list` gives values of its own with their
        // number.
        list(|into, room, length| unsafe { span_registry_open_ids(handle, into, room, length) })
    }

    /// What keeps a span open: the spans at it or below it that have handles or entries of their own, by ascending
    /// slot.
    pub(crate) fn holders_of(&mut self, id: RawId) -> Result<Vec<SpanHeld>, Refusal> {
        let handle = self.handle();
        // SAFETY: the handle is full and lent to this call alone, and `list` gives values of its own with their
        // number.
        list(|into, room, length| unsafe { span_registry_holders_of(handle, id.get(), into, room, length) })
    }

    /// The workers that are inside a span, by their numbers.
    pub(crate) fn workers_inside(&mut self, id: RawId) -> Result<Vec<u32>, Refusal> {
        let handle = self.handle();
        // SAFETY: the handle is full and lent to this call alone, and `list` gives values of its own with their
        // number.
        list(|into, room, length| unsafe { span_registry_workers_inside(handle, id.get(), into, room, length) })
    }
}
