//! What calls are handed in structs, as the C header has it: `tests/header.rs` compares the two, field by field.
use std::ffi::c_void;
use std::ptr;

#[repr(C)]
pub(super) struct SpanRegistry {
    pub(super) at: *mut c_void,
}

#[repr(C)]
pub(super) struct SpanDrain {
    pub(super) at: *mut c_void,
}

impl SpanRegistry {
    pub(super) const EMPTY: SpanRegistry = SpanRegistry { at: ptr::null_mut() };
}

impl SpanDrain {
    pub(super) const EMPTY: SpanDrain = SpanDrain { at: ptr::null_mut() };
}

#[repr(C)]
#[derive(Clone, Copy, Debug)]
pub(crate) struct SpanLimits {
    pub(crate) slots: u32,
    pub(crate) last_generation: u32,
    pub(crate) max_count: u32,
    pub(crate) workers: u32,
    pub(crate) ring: u32,
}

#[repr(C)]
#[derive(Clone, Copy, Debug)]
pub(crate) struct SpanLayer {
    pub(crate) form: u32,
    pub(crate) kinds: u32,
    pub(crate) rules: u32,
}

#[repr(C)]
#[derive(Clone, Copy, Debug)]
pub(crate) struct SpanRule {
    pub(crate) prefix_len: u32,
    pub(crate) level: u32,
}

#[repr(C)]
#[derive(Default)]
pub(super) struct SpanMeta {
    pub(super) level: u32,
    pub(super) name_len: u32,
    pub(super) target_len: u32,
}

#[repr(C)]
#[derive(Clone, Copy, Debug, Default, PartialEq, Eq)]
pub(crate) struct SpanField {
    pub(crate) key_len: u32,
    pub(crate) value_len: u32,
}

impl SpanField {
    /// How many bytes its key and its value have.
    pub(crate) fn bytes(self) -> usize {
        self.key_len as usize + self.value_len as usize
    }
}

#[repr(C)]
#[derive(Clone, Copy, Debug, Default)]
pub(crate) struct SpanFound {
    pub(crate) parent: u64,
    pub(crate) handles: u32,
    pub(crate) entries: u32,
    pub(crate) count: u32,
    pub(crate) level: u32,
}

#[repr(C)]
#[derive(Clone, Copy, Debug, Default)]
pub(crate) struct SpanHeld {
    pub(crate) id: u64,
    pub(crate) handles: u32,
    pub(crate) entries: u32,
}

#[repr(C)]
#[derive(Clone, Copy, Debug, Default)]
pub(crate) struct SpanCounts {
    pub(crate) made: u64,
    pub(crate) closed: u64,
    pub(crate) calls: u64,
    pub(crate) held: u64,
    pub(crate) open: u32,
    pub(crate) workers: u32,
}

#[repr(C)]
#[derive(Clone, Copy, Debug, Default, PartialEq, Eq)]
pub(crate) struct SpanNote {
    pub(crate) batch: u64,
    pub(crate) id: u64,
    pub(crate) layer: u32,
    pub(crate) kind: u32,
    pub(crate) worker: u32,
    pub(crate) level: u32,
    pub(crate) path_len: u32,
    pub(crate) message_len: u32,
}

#[repr(C)]
#[allow(dead_code)]
pub(super) struct SpanHeading {
    pub(super) stamp: u64,
    pub(super) parent: u64,
    pub(super) has_callsite: u32,
    pub(super) callsite: u32,
    pub(super) level: u32,
    pub(super) name_len: u32,
    pub(super) target_len: u32,
}

#[repr(C)]
#[derive(Clone, Copy, Debug, Default, PartialEq, Eq)]
pub(super) struct SpanSizes {
    pub(super) limits: u32,
    pub(super) layer: u32,
    pub(super) rule: u32,
    pub(super) meta: u32,
    pub(super) field: u32,
    pub(super) found: u32,
    pub(super) held: u32,
    pub(super) counts: u32,
}
