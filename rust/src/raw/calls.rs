//! The owner of a registry's handle.
use super::{
    abi, span_registry_add_callsite, span_registry_clone_span, span_registry_counts, span_registry_current_span,
    span_registry_enter, span_registry_event_in, span_registry_event_in_at, span_registry_exit, span_registry_find,
    span_registry_free, span_registry_new, span_registry_new_span, span_registry_new_span_at, span_registry_record,
    span_registry_try_close, Lines, SpanCounts, SpanDrain, SpanFound, SpanLayer, SpanLimits, SpanMeta, SpanRegistry,
    SpanRule, CURRENT, ROOT, UNDER,
};
use crate::error::Error;
use crate::meta::{Meta, RawId, RawParent};
use crate::packed::{length, Texts};
use crate::refusal::Refusal;

/// What a registry is made of.
pub(crate) struct Start<'a> {
    pub(crate) limits: SpanLimits,
    pub(crate) layers: &'a [SpanLayer],
    pub(crate) rules: &'a [SpanRule],
    pub(crate) texts: &'a [u8],
}

/// The proved registry, with no lock. It is full from `new` on until it is dropped.
pub(crate) struct Core {
    pub(super) handle: SpanRegistry,
}

// SAFETY: the header says that a registry may move between threads. It has one call at a time, since each takes it as
// `&mut`.
unsafe impl Send for Core {}

impl Core {
    pub(crate) fn new(start: &Start<'_>) -> Result<(Core, Lines), Error> {
        abi::check()?;
        let mut core = SpanRegistry::EMPTY;
        let mut drain = SpanDrain::EMPTY;
        // SAFETY: both handles are empty, and each pointer is of a value or of a slice with its length. Nothing that
        // is written overlaps anything else.
        let status = unsafe {
            span_registry_new(
                &mut core,
                &mut drain,
                &start.limits,
                start.layers.as_ptr(),
                start.layers.len(),
                start.rules.as_ptr(),
                start.rules.len(),
                start.texts.as_ptr(),
                start.texts.len(),
            )
        };
        Refusal::of_status(status)?;
        Ok((Core { handle: core }, Lines::of(drain)))
    }

    /// None: no layer wants it.
    pub(crate) fn new_span(
        &mut self,
        worker: u32,
        parent: RawParent,
        meta: &Meta<'_>,
        texts: Texts<'_>,
    ) -> Result<Option<RawId>, Refusal> {
        let meta = raw_meta(meta)?;
        let (kind, parent) = raw_parent(parent);
        let Texts { fields, bytes } = texts;
        let mut id = 0;
        // SAFETY: the handle is full and lent to this call alone, and each pointer is of a value or of a slice with
        // its length.
        let status = unsafe {
            span_registry_new_span(
                &mut self.handle,
                worker,
                kind,
                parent,
                &meta,
                fields.as_ptr(),
                fields.len(),
                bytes.as_ptr(),
                bytes.len(),
                &mut id,
            )
        };
        Refusal::of_status(status)?;
        Ok(RawId::from_u64(id))
    }

    /// The number of the callsite that is added. The texts are its name and its target.
    pub(crate) fn add_callsite(&mut self, meta: &Meta<'_>, texts: Texts<'_>) -> Result<u32, Refusal> {
        let meta = raw_meta(meta)?;
        let bytes = texts.bytes;
        let mut number = 0;
        // SAFETY: the handle is full and lent to this call alone, and each pointer is of a value or of a slice with
        // its length.
        Refusal::of_status(unsafe {
            span_registry_add_callsite(&mut self.handle, &meta, bytes.as_ptr(), bytes.len(), &mut number)
        })?;
        Ok(number)
    }

    /// None: no layer wants it.
    pub(crate) fn new_span_at(
        &mut self,
        worker: u32,
        parent: RawParent,
        callsite: u32,
        texts: Texts<'_>,
    ) -> Result<Option<RawId>, Refusal> {
        let (kind, parent) = raw_parent(parent);
        let Texts { fields, bytes } = texts;
        let mut id = 0;
        // SAFETY: the handle is full and lent to this call alone, and each pointer is of a value or of a slice with
        // its length.
        let status = unsafe {
            span_registry_new_span_at(
                &mut self.handle,
                worker,
                kind,
                parent,
                callsite,
                fields.as_ptr(),
                fields.len(),
                bytes.as_ptr(),
                bytes.len(),
                &mut id,
            )
        };
        Refusal::of_status(status)?;
        Ok(RawId::from_u64(id))
    }

    pub(crate) fn clone_span(&mut self, worker: u32, id: RawId) -> Result<(), Refusal> {
        // SAFETY: the handle is full and lent to this call alone.
        Refusal::of_status(unsafe { span_registry_clone_span(&mut self.handle, worker, id.get()) })
    }

    /// Whether the entry is no duplicate.
    pub(crate) fn enter(&mut self, worker: u32, id: RawId) -> Result<bool, Refusal> {
        let mut first = 0;
        // SAFETY: the handle is full and lent to this call alone, and `first` is this call's.
        Refusal::of_status(unsafe { span_registry_enter(&mut self.handle, worker, id.get(), &mut first) })?;
        Ok(first != 0)
    }

    /// Whether the span closed.
    pub(crate) fn exit(&mut self, worker: u32, id: RawId) -> Result<bool, Refusal> {
        let mut closed = 0;
        // SAFETY: the handle is full and lent to this call alone, and `closed` is this call's.
        Refusal::of_status(unsafe { span_registry_exit(&mut self.handle, worker, id.get(), &mut closed) })?;
        Ok(closed != 0)
    }

    /// Whether the span closed.
    pub(crate) fn try_close(&mut self, worker: u32, id: RawId) -> Result<bool, Refusal> {
        let mut closed = 0;
        // SAFETY: the handle is full and lent to this call alone, and `closed` is this call's.
        Refusal::of_status(unsafe { span_registry_try_close(&mut self.handle, worker, id.get(), &mut closed) })?;
        Ok(closed != 0)
    }

    pub(crate) fn record(&mut self, worker: u32, id: RawId, texts: Texts<'_>) -> Result<(), Refusal> {
        let Texts { fields, bytes } = texts;
        // SAFETY: the handle is full and lent to this call alone, and each pointer is of a slice with its length.
        Refusal::of_status(unsafe {
            span_registry_record(
                &mut self.handle,
                worker,
                id.get(),
                fields.as_ptr(),
                fields.len(),
                bytes.as_ptr(),
                bytes.len(),
            )
        })
    }

    pub(crate) fn event(
        &mut self,
        worker: u32,
        parent: RawParent,
        meta: &Meta<'_>,
        message: &str,
        texts: Texts<'_>,
    ) -> Result<(), Refusal> {
        let meta = raw_meta(meta)?;
        let (kind, parent) = raw_parent(parent);
        let message_len = length(message)?;
        let Texts { fields, bytes } = texts;
        // SAFETY: the handle is full and lent to this call alone, and each pointer is of a value or of a slice with
        // its length.
        Refusal::of_status(unsafe {
            span_registry_event_in(
                &mut self.handle,
                worker,
                kind,
                parent,
                &meta,
                message_len,
                fields.as_ptr(),
                fields.len(),
                bytes.as_ptr(),
                bytes.len(),
            )
        })
    }

    pub(crate) fn event_at(
        &mut self,
        worker: u32,
        parent: RawParent,
        callsite: u32,
        message: &str,
        texts: Texts<'_>,
    ) -> Result<(), Refusal> {
        let message_len = length(message)?;
        let (kind, parent) = raw_parent(parent);
        let Texts { fields, bytes } = texts;
        // SAFETY: the handle is full and lent to this call alone, and each pointer is of a slice with its length.
        Refusal::of_status(unsafe {
            span_registry_event_in_at(
                &mut self.handle,
                worker,
                kind,
                parent,
                callsite,
                message_len,
                fields.as_ptr(),
                fields.len(),
                bytes.as_ptr(),
                bytes.len(),
            )
        })
    }

    pub(crate) fn find(&mut self, id: RawId) -> Option<SpanFound> {
        let mut found = SpanFound::default();
        // SAFETY: the handle is full and lent to this call alone, and `found` is this call's.
        let status = unsafe { span_registry_find(&mut self.handle, id.get(), &mut found) };
        Refusal::of_status(status).ok()?;
        Some(found)
    }

    pub(crate) fn current_span(&mut self, worker: u32) -> Result<Option<RawId>, Refusal> {
        let mut id = 0;
        // SAFETY: the handle is full and lent to this call alone, and `id` is this call's.
        Refusal::of_status(unsafe { span_registry_current_span(&mut self.handle, worker, &mut id) })?;
        Ok(RawId::from_u64(id))
    }

    pub(crate) fn counts(&mut self) -> SpanCounts {
        let mut counts = SpanCounts::default();
        // SAFETY: the handle is full and lent to this call alone, and `counts` is this call's.
        let status = unsafe { span_registry_counts(&mut self.handle, &mut counts) };
        debug_assert_eq!(status, super::OK);
        counts
    }
}

impl Drop for Core {
    fn drop(&mut self) {
        // SAFETY: the handle is full, lent to this call alone, and not used again.
        let status = unsafe { span_registry_free(&mut self.handle) };
        debug_assert_eq!(status, super::OK);
    }
}

fn raw_parent(parent: RawParent) -> (u32, u64) {
    match parent {
        RawParent::Root => (ROOT, 0),
        RawParent::Current => (CURRENT, 0),
        RawParent::Of(id) => (UNDER, id.get()),
    }
}

fn raw_meta(meta: &Meta<'_>) -> Result<SpanMeta, Refusal> {
    Ok(SpanMeta {
        level: meta.level.verbosity(),
        name_len: length(meta.name)?,
        target_len: length(meta.target)?,
    })
}
