//! The C interface of `include/span_registry.h`, declaration by declaration, owners of its two handles, and room for
//! texts that are handed over.
//!
//! All unsafe code of this crate is in this module.
mod abi;
mod calls;
mod closing;
mod lines;
mod queries;
mod short;
mod structs;
mod telling;

pub(crate) use calls::{Core, Start};
pub(crate) use closing::Closed;
pub(crate) use lines::{Lines, Next, NextNote};
#[cfg(test)]
pub(crate) use short::SHORT;
pub(crate) use short::{Short, FEW};
pub(crate) use structs::{SpanCounts, SpanField, SpanFound, SpanHeld, SpanLayer, SpanLimits, SpanNote, SpanRule};

use structs::{SpanDrain, SpanHeading, SpanMeta, SpanRegistry, SpanSizes};

const ABI_VERSION: u32 = 3;

pub(crate) const OK: u32 = 0;
pub(crate) const UNKNOWN: u32 = 1;
pub(crate) const COUNT_FULL: u32 = 2;
pub(crate) const FULL: u32 = 3;
pub(crate) const NOT_ENTERED: u32 = 4;
pub(crate) const TOO_MANY_LAYERS: u32 = 5;
pub(crate) const BAD_NAME: u32 = 6;
pub(crate) const BACKLOG: u32 = 7;
pub(crate) const BAD_LIMITS: u32 = 8;
pub(crate) const OUT_OF_MEMORY: u32 = 10;
pub(crate) const BAD_DATA: u32 = 11;
const SHORT_BUFFER: u32 = 16;

const ROOT: u32 = 0;
const CURRENT: u32 = 1;
const UNDER: u32 = 2;

unsafe extern "C" {
    fn span_abi_version() -> u32;
    fn span_struct_sizes(sizes: *mut SpanSizes) -> u32;
    fn span_registry_new(
        registry: *mut SpanRegistry,
        drain: *mut SpanDrain,
        limits: *const SpanLimits,
        layers: *const SpanLayer,
        layers_len: usize,
        rules: *const SpanRule,
        rules_len: usize,
        texts: *const u8,
        texts_len: usize,
    ) -> u32;
    #[allow(dead_code)]
    fn span_registry_new_with_headings(
        registry: *mut SpanRegistry,
        drain: *mut SpanDrain,
        limits: *const SpanLimits,
        layers: *const SpanLayer,
        layers_len: usize,
        rules: *const SpanRule,
        rules_len: usize,
        texts: *const u8,
        texts_len: usize,
    ) -> u32;
    fn span_registry_free(registry: *mut SpanRegistry) -> u32;
    fn span_registry_new_span(
        registry: *mut SpanRegistry,
        worker: u32,
        parent_kind: u32,
        parent: u64,
        meta: *const SpanMeta,
        fields: *const SpanField,
        fields_len: usize,
        texts: *const u8,
        texts_len: usize,
        id: *mut u64,
    ) -> u32;
    fn span_registry_clone_span(registry: *mut SpanRegistry, worker: u32, id: u64) -> u32;
    fn span_registry_enter(registry: *mut SpanRegistry, worker: u32, id: u64, first: *mut u32) -> u32;
    fn span_registry_exit(registry: *mut SpanRegistry, worker: u32, id: u64, closed: *mut u32) -> u32;
    fn span_registry_try_close(registry: *mut SpanRegistry, worker: u32, id: u64, closed: *mut u32) -> u32;
    fn span_registry_exit_closing(
        registry: *mut SpanRegistry,
        worker: u32,
        id: u64,
        into: *mut u64,
        into_len: usize,
        len: *mut usize,
    ) -> u32;
    fn span_registry_try_close_closing(
        registry: *mut SpanRegistry,
        worker: u32,
        id: u64,
        into: *mut u64,
        into_len: usize,
        len: *mut usize,
    ) -> u32;
    fn span_registry_record(
        registry: *mut SpanRegistry,
        worker: u32,
        id: u64,
        fields: *const SpanField,
        fields_len: usize,
        texts: *const u8,
        texts_len: usize,
    ) -> u32;
    fn span_registry_follows_from(registry: *mut SpanRegistry, worker: u32, id: u64, followed: u64) -> u32;
    // The same as the next one with CURRENT, which is called in its place.
    #[allow(dead_code)]
    fn span_registry_event(
        registry: *mut SpanRegistry,
        worker: u32,
        meta: *const SpanMeta,
        message_len: u32,
        fields: *const SpanField,
        fields_len: usize,
        texts: *const u8,
        texts_len: usize,
    ) -> u32;
    fn span_registry_event_in(
        registry: *mut SpanRegistry,
        worker: u32,
        parent_kind: u32,
        parent: u64,
        meta: *const SpanMeta,
        message_len: u32,
        fields: *const SpanField,
        fields_len: usize,
        texts: *const u8,
        texts_len: usize,
    ) -> u32;
    #[allow(dead_code)]
    fn span_registry_say_of_calls(
        registry: *mut SpanRegistry,
        stamp: u64,
        value_kinds: *const u8,
        value_kinds_len: usize,
    ) -> u32;
    fn span_registry_add_callsite(
        registry: *mut SpanRegistry,
        meta: *const SpanMeta,
        texts: *const u8,
        texts_len: usize,
        number: *mut u32,
    ) -> u32;
    fn span_registry_new_span_at(
        registry: *mut SpanRegistry,
        worker: u32,
        parent_kind: u32,
        parent: u64,
        callsite: u32,
        fields: *const SpanField,
        fields_len: usize,
        texts: *const u8,
        texts_len: usize,
        id: *mut u64,
    ) -> u32;
    #[allow(dead_code)]
    fn span_registry_event_at(
        registry: *mut SpanRegistry,
        worker: u32,
        callsite: u32,
        message_len: u32,
        fields: *const SpanField,
        fields_len: usize,
        texts: *const u8,
        texts_len: usize,
    ) -> u32;
    fn span_registry_event_in_at(
        registry: *mut SpanRegistry,
        worker: u32,
        parent_kind: u32,
        parent: u64,
        callsite: u32,
        message_len: u32,
        fields: *const SpanField,
        fields_len: usize,
        texts: *const u8,
        texts_len: usize,
    ) -> u32;
    fn span_registry_wants(
        registry: *mut SpanRegistry,
        level: u32,
        target: *const u8,
        target_len: usize,
        wanted: *mut u32,
    ) -> u32;
    fn span_registry_callsite_wants(registry: *mut SpanRegistry, callsite: u32, wanted: *mut u32) -> u32;
    fn span_registry_max_level(registry: *mut SpanRegistry, levels: *mut u32) -> u32;
    fn span_registry_find(registry: *mut SpanRegistry, id: u64, found: *mut SpanFound) -> u32;
    fn span_registry_layers_of(registry: *mut SpanRegistry, id: u64, layers: *mut u64) -> u32;
    #[allow(dead_code)]
    fn span_registry_callsite_of(registry: *mut SpanRegistry, id: u64, callsite: *mut u32) -> u32;
    fn span_registry_details(
        registry: *mut SpanRegistry,
        id: u64,
        meta: *mut SpanMeta,
        fields: *mut SpanField,
        fields_room: usize,
        fields_len: *mut usize,
        texts: *mut u8,
        texts_room: usize,
        texts_len: *mut usize,
    ) -> u32;
    fn span_registry_current_span(registry: *mut SpanRegistry, worker: u32, id: *mut u64) -> u32;
    fn span_registry_entry(
        registry: *mut SpanRegistry,
        worker: u32,
        place: usize,
        id: *mut u64,
        depth: *mut usize,
    ) -> u32;
    fn span_registry_times_full(registry: *mut SpanRegistry, times: *mut u64) -> u32;
    #[allow(dead_code)]
    fn span_registry_headings_lost(registry: *mut SpanRegistry, lost: *mut u64) -> u32;
    fn span_registry_counts(registry: *mut SpanRegistry, counts: *mut SpanCounts) -> u32;
    fn span_registry_open_ids(registry: *mut SpanRegistry, into: *mut u64, into_len: usize, len: *mut usize) -> u32;
    fn span_registry_holders_of(
        registry: *mut SpanRegistry,
        id: u64,
        into: *mut SpanHeld,
        into_len: usize,
        len: *mut usize,
    ) -> u32;
    fn span_registry_workers_inside(
        registry: *mut SpanRegistry,
        id: u64,
        into: *mut u32,
        into_len: usize,
        len: *mut usize,
    ) -> u32;

    fn span_drain_line(drain: *mut SpanDrain, layer: *mut u32, into: *mut u8, into_len: usize, len: *mut usize) -> u32;
    fn span_drain_note(
        drain: *mut SpanDrain,
        note: *mut SpanNote,
        fields: *mut SpanField,
        fields_room: usize,
        fields_len: *mut usize,
        texts: *mut u8,
        texts_room: usize,
        texts_len: *mut usize,
    ) -> u32;
    #[allow(dead_code)]
    fn span_drain_heading(
        drain: *mut SpanDrain,
        heading: *mut SpanHeading,
        value_kinds: *mut u8,
        value_kinds_room: usize,
        value_kinds_len: *mut usize,
        texts: *mut u8,
        texts_room: usize,
        texts_len: *mut usize,
    ) -> u32;
    fn span_drain_skip_batch(drain: *mut SpanDrain, skipped: *mut usize) -> u32;
    fn span_drain_counts(drain: *mut SpanDrain, batches: *mut u64, missed: *mut u64) -> u32;
    fn span_drain_free(drain: *mut SpanDrain) -> u32;

    fn span_status_text(status: u32, into: *mut u8, into_len: usize, len: *mut usize) -> u32;
}

/// What the library says of a status.
pub(crate) fn status_text(status: u32) -> String {
    let mut text = vec![0; 64];
    loop {
        let mut length = 0;
        // SAFETY: `text` is initialized and as long as is said, and nothing else refers to it or to `length`.
        let answer = unsafe { span_status_text(status, text.as_mut_ptr(), text.len(), &mut length) };
        if answer != SHORT_BUFFER || length <= text.len() {
            text.truncate(if answer == OK { length } else { 0 });
            return String::from_utf8_lossy(&text).into_owned();
        }
        text.resize(length, 0);
    }
}

#[cfg(test)]
mod tests {
    use super::status_text;

    #[test]
    fn each_status_has_a_text_of_one_line() {
        for status in 0..=17 {
            let text = status_text(status);
            assert!(!text.contains('\n'), "{text:?}");
            assert!(status == 9 || !text.is_empty(), "status {status}");
        }
    }
}
