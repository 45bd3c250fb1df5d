/* A registry of spans, as Rust's `tracing` has one, proved: the C interface of the library span_ffi.
 *
 * Every call but span_abi_version answers a status, and SPAN_OK alone means that it was done. Any other status left the
 * registry, the drain and every output as they were, but for what is said of it here. What a pointer points to has to
 * be there, also where a length is 0: no pointer may be NULL, and no output may overlap another output, an input or a
 * handle. Between calls on one handle in two threads stands a lock, a start or join, or the like. No call may come from
 * a signal handler. The library takes its memory by malloc, realloc and free. */
#ifndef SPAN_REGISTRY_H
#define SPAN_REGISTRY_H

#include <stddef.h>
#include <stdint.h>

#ifdef __cplusplus
extern "C" {
#endif

/* A registry without a lock: one call at a time. It may move between threads. {NULL} is empty. Not to be copied. */
typedef struct SpanRegistry {
    void *at;
} SpanRegistry;

/* The end from which lines are read. It needs no lock, and may be used in another thread beside the registry, one call
 * at a time. {NULL} is empty. Not to be copied. */
typedef struct SpanDrain {
    void *at;
} SpanDrain;

enum {
    SPAN_OK = 0,
    SPAN_UNKNOWN = 1,          /* no open span has the id; where the call needs a handle of it: or none is out; or the
                                  heading was lost */
    SPAN_COUNT_FULL = 2,       /* a count that would rise stands at its greatest value, or a length is too great for
                                  its number */
    SPAN_FULL = 3,             /* no slot is free */
    SPAN_NOT_ENTERED = 4,      /* the span doesn't stand in the worker's stack */
    SPAN_TOO_MANY_LAYERS = 5,  /* there are more than 64 */
    SPAN_BAD_NAME = 6,         /* a name or key isn't 1 to 64 ASCII letters, digits, '_', '.' or '-' */
    SPAN_BACKLOG = 7,          /* the ring has no free place: lines have to be read first */
    SPAN_BAD_LIMITS = 8,       /* a limit is outside its range */
    SPAN_OUT_OF_MEMORY = 10,
    SPAN_BAD_DATA = 11,        /* lengths that don't fit the texts, or rules the layers; text that is no UTF-8; a level,
                                  form, kinds, kind of parent or kind of value that aren't there; or no headings are
                                  kept */
    SPAN_EMPTY_HANDLE = 12,
    SPAN_HANDLE_IN_USE = 13,   /* a handle that was to be filled isn't empty */
    SPAN_NO_SUCH_WORKER = 14,
    SPAN_NO_LINE = 15,         /* the drain has no line now, or no heading of its note */
    SPAN_SHORT_BUFFER = 16,    /* the text or list is longer than the buffer: how long it is was told */
    SPAN_NO_SUCH_CALLSITE = 17 /* no span_registry_add_callsite gave the number, or no callsite is the span's */
};

/* slots 1 to 2^24; last_generation any; max_count from 1; workers 1 to 65536; ring 1 to 65536 */
typedef struct SpanLimits {
    uint32_t slots, last_generation, max_count, workers, ring;
} SpanLimits;

/* of which happenings of a span a layer writes lines, beside those of records and events */
enum { SPAN_KIND_NEW = 1, SPAN_KIND_ENTER = 2, SPAN_KIND_EXIT = 4, SPAN_KIND_CLOSE = 8, SPAN_KINDS_ALL = 15 };

/* form 0 compact, 1 JSON; kinds a sum of these; rules: how many of the rules are its own, and where none of them
 * fits it admits nothing */
typedef struct SpanLayer {
    uint32_t form, kinds, rules;
} SpanLayer;

/* lets in targets that begin with the prefix, up to the level; the longest prefix decides, of equal ones the later.
 * Levels: 0 ERROR, 1 WARN, 2 INFO, 3 DEBUG, 4 TRACE */
typedef struct SpanRule {
    uint32_t prefix_len, level;
} SpanRule;

typedef struct SpanMeta {
    uint32_t level, name_len, target_len;
} SpanMeta;

typedef struct SpanField {
    uint32_t key_len, value_len;
} SpanField;

/* parent 0: a root; count: handles, workers inside, and open children */
typedef struct SpanFound {
    uint64_t parent;
    uint32_t handles, entries, count, level;
} SpanFound;

/* a span that has handles or entries of its own, with how many */
typedef struct SpanHeld {
    uint64_t id;
    uint32_t handles, entries;
} SpanHeld;

/* held: the handles and entries of all spans */
typedef struct SpanCounts {
    uint64_t made, closed, calls, held;
    uint32_t open, workers;
} SpanCounts;

/* how many bytes each of the structs above takes, but for the handles */
typedef struct SpanSizes {
    uint32_t limits, layer, rule, meta, field, found, held, counts;
} SpanSizes;

/* batch: its number, from 0. id: the span; of an event the one that it is told in, 0 for none. kind: 0 new, 1 record,
 * 2 event, 3 enter, 4 exit, 5 close. level, message_len: an event's, else 0. Its size isn't told. */
typedef struct SpanNote {
    uint64_t batch, id;
    uint32_t layer, kind, worker, level, path_len, message_len;
} SpanNote;

/* stamp: as it was said of the note's call. All else is of the event, or of the note's span where that was made:
 * parent, which is 0 for none, and of an event the span that it is told in; has_callsite: 1 where it was at a callsite,
 * else 0, and callsite: at which, else 0; its level; and how long its name and its target are. Its size isn't told. */
typedef struct SpanHeading {
    uint64_t stamp, parent;
    uint32_t has_callsite, callsite, level, name_len, target_len;
} SpanHeading;

/* The version of this interface that the program was built for, and the one that the library has. They rise where a
 * program that was built for an earlier one would go wrong, so they are compared before any other call. */
#define SPAN_ABI_VERSION 3
uint32_t span_abi_version(void);

/* The sizes in the library, to be compared with those in the program. Always SPAN_OK. */
uint32_t span_struct_sizes(SpanSizes *sizes);

/* Texts stand one after another in `texts`, each of the length that its struct tells, and all bytes have to be used up.
 * Of several things that stand against a call the status tells the first: SPAN_EMPTY_HANDLE, SPAN_NO_SUCH_WORKER,
 * SPAN_NO_SUCH_CALLSITE, SPAN_BAD_DATA, SPAN_BAD_NAME, SPAN_UNKNOWN, SPAN_COUNT_FULL, SPAN_FULL, SPAN_NOT_ENTERED;
 * SPAN_BACKLOG comes where none of these does, and SPAN_OUT_OF_MEMORY may come before SPAN_BAD_NAME and what follows
 * it. That no layer wants a span is found after SPAN_BAD_NAME and before SPAN_UNKNOWN. Workers, layers and callsites
 * are numbered from 0. */

/* Fills two empty handles. Each layer takes the next of the rules for its own; texts: the prefixes of all rules.
 * Refused in this order: SPAN_HANDLE_IN_USE, SPAN_BAD_LIMITS, SPAN_TOO_MANY_LAYERS, SPAN_BAD_DATA,
 * SPAN_OUT_OF_MEMORY. */
uint32_t span_registry_new(SpanRegistry *registry, SpanDrain *drain, const SpanLimits *limits,
    const SpanLayer *layers, size_t layers_len, const SpanRule *rules, size_t rules_len,
    const uint8_t *texts, size_t texts_len);

/* The same, and a heading is kept of each accepted call, which span_drain_heading tells: what was said of the call by
 * span_registry_say_of_calls, its callsite, and what it was about. Headings have a ring of their own, with two places
 * for each place of the other, and one more: some 90 bytes each. The drain's calls that take batches take their
 * headings out too, as far as there is memory to keep those of spans, for later notes: of each slot the last, also once
 * its span closed, until the drain is freed. That is some 90 bytes for each slot up to the highest one in use. */
uint32_t span_registry_new_with_headings(SpanRegistry *registry, SpanDrain *drain, const SpanLimits *limits,
    const SpanLayer *layers, size_t layers_len, const SpanRule *rules, size_t rules_len,
    const uint8_t *texts, size_t texts_len);

/* Gives the memory back, and the handle is empty. The drain may still be read. */
uint32_t span_registry_free(SpanRegistry *registry);

/* What a new span or an event has for a parent: none, the worker's current span (none where it has none), or the span
 * that is named. Only then is `parent` looked at. */
enum { SPAN_ROOT = 0, SPAN_CURRENT = 1, SPAN_UNDER = 2 };

/* A span with one handle. texts: name, target, then each key and its value. id: 0
 * where there are layers and none admits the span: then none is made. */
uint32_t span_registry_new_span(SpanRegistry *registry, uint32_t worker, uint32_t parent_kind, uint64_t parent,
    const SpanMeta *meta, const SpanField *fields, size_t fields_len, const uint8_t *texts, size_t texts_len,
    uint64_t *id);

/* One more handle. */
uint32_t span_registry_clone_span(SpanRegistry *registry, uint32_t worker, uint64_t id);

/* first: 1 where the worker wasn't inside the span, else 0. */
uint32_t span_registry_enter(SpanRegistry *registry, uint32_t worker, uint64_t id, uint32_t *first);

/* closed: 1 where the span closed, else 0. */
uint32_t span_registry_exit(SpanRegistry *registry, uint32_t worker, uint64_t id, uint32_t *closed);

/* Gives a handle back. closed: 1 where the span closed, else 0. */
uint32_t span_registry_try_close(SpanRegistry *registry, uint32_t worker, uint64_t id, uint32_t *closed);

/* As span_registry_exit and span_registry_try_close, and the spans that closed are told: their ids, child first, are
 * written to the beginning of a buffer that has room for into_len of them. len: how many closed, 0 where none did. What
 * is done can't be undone: of more than into_len the first ones are written, and the status is SPAN_OK. */
uint32_t span_registry_exit_closing(SpanRegistry *registry, uint32_t worker, uint64_t id,
    uint64_t *into, size_t into_len, size_t *len);
uint32_t span_registry_try_close_closing(SpanRegistry *registry, uint32_t worker, uint64_t id,
    uint64_t *into, size_t into_len, size_t *len);

/* Appends fields. texts: each key and its value. */
uint32_t span_registry_record(SpanRegistry *registry, uint32_t worker, uint64_t id,
    const SpanField *fields, size_t fields_len, const uint8_t *texts, size_t texts_len);

/* Tells that a span follows from another, which may have closed: span_registry_record of the one field `follows_from`,
 * whose value is the number `followed`, in decimal. Any number is taken. */
uint32_t span_registry_follows_from(SpanRegistry *registry, uint32_t worker, uint64_t id, uint64_t followed);

/* texts: name, target, message, then each key and its value. Each layer sees it in the topmost span, of those that the
 * worker is inside, that it admits. */
uint32_t span_registry_event(SpanRegistry *registry, uint32_t worker, const SpanMeta *meta, uint32_t message_len,
    const SpanField *fields, size_t fields_len, const uint8_t *texts, size_t texts_len);

/* The same under a parent, which isn't held for it: a layer that doesn't admit the span that is named sees the event in
 * no span. SPAN_UNKNOWN where that isn't open. With SPAN_CURRENT it is span_registry_event. */
uint32_t span_registry_event_in(SpanRegistry *registry, uint32_t worker, uint32_t parent_kind, uint64_t parent,
    const SpanMeta *meta, uint32_t message_len, const SpanField *fields, size_t fields_len,
    const uint8_t *texts, size_t texts_len);

/* Of which kind the value of a field is, which is a text here whatever its kind. */
enum { SPAN_VALUE_TEXT = 0, SPAN_VALUE_INTEGER = 1, SPAN_VALUE_FLOAT = 2, SPAN_VALUE_BOOL = 3, SPAN_VALUE_NULL = 4 };

/* Says, before a call, what its heading has of it. stamp: that of each call from now on, until another is said: a time
 * by the program's clock, or any number; 0 before the first. value_kinds: those of the values of the next call, in the
 * order of its fields. The next call that is accepted uses them up, whichever it is; fewer or more than its fields are
 * kept as they are. A call that is refused, and a new span that no layer wants, leave them to the one after it. So
 * whoever says them of one call says them of each: with value_kinds_len 0 there are none. Refused in this order:
 * SPAN_EMPTY_HANDLE; SPAN_BAD_DATA, where no headings are kept or a kind isn't there; SPAN_OUT_OF_MEMORY. */
uint32_t span_registry_say_of_calls(SpanRegistry *registry, uint64_t stamp,
    const uint8_t *value_kinds, size_t value_kinds_len);

/* Adds a callsite: a place of a program that makes spans or tells events again and again. Its level, name and target
 * are read, tested and kept here once. texts: name, target. number: how many callsites there were before. The number is
 * good for this registry alone, until that is freed. Equal callsites may be added, and none is taken away. It needs no
 * worker, and puts nothing into the ring. Refused in this order: SPAN_EMPTY_HANDLE, SPAN_BAD_DATA, SPAN_BAD_NAME,
 * SPAN_COUNT_FULL where there are 2^32 callsites; SPAN_OUT_OF_MEMORY may come before SPAN_BAD_NAME. */
uint32_t span_registry_add_callsite(SpanRegistry *registry, const SpanMeta *meta,
    const uint8_t *texts, size_t texts_len, uint32_t *number);

/* As span_registry_new_span, with the level, name and target of a callsite. texts: each key and its value. */
uint32_t span_registry_new_span_at(SpanRegistry *registry, uint32_t worker, uint32_t parent_kind, uint64_t parent,
    uint32_t callsite, const SpanField *fields, size_t fields_len, const uint8_t *texts, size_t texts_len,
    uint64_t *id);

/* As span_registry_event, with the level, name and target of a callsite. texts: message, then each key and its
 * value. */
uint32_t span_registry_event_at(SpanRegistry *registry, uint32_t worker, uint32_t callsite, uint32_t message_len,
    const SpanField *fields, size_t fields_len, const uint8_t *texts, size_t texts_len);

/* The same under a parent, as of span_registry_event_in. */
uint32_t span_registry_event_in_at(SpanRegistry *registry, uint32_t worker, uint32_t parent_kind, uint64_t parent,
    uint32_t callsite, uint32_t message_len, const SpanField *fields, size_t fields_len,
    const uint8_t *texts, size_t texts_len);

/* wanted: 1 where some layer's rule admits what has this target and level, else 0, also where there is no layer. Rules
 * never change, so the answer may be kept. SPAN_BAD_DATA where the target is no UTF-8 or the level isn't there. */
uint32_t span_registry_wants(SpanRegistry *registry, uint32_t level, const uint8_t *target, size_t target_len,
    uint32_t *wanted);

/* The same of the target and the level of a callsite. It takes no memory. */
uint32_t span_registry_callsite_wants(SpanRegistry *registry, uint32_t callsite, uint32_t *wanted);

/* levels: what is wanted has a level below this number. It counts the levels from ERROR up to the most verbose one that
 * a layer's rule has, also one that a later rule of the same prefix overrides: 0 where there are layers and none has a
 * rule, 5 where there is no layer, since spans are made then. It never changes either. */
uint32_t span_registry_max_level(SpanRegistry *registry, uint32_t *levels);

/* SPAN_UNKNOWN where the span isn't open. */
uint32_t span_registry_find(SpanRegistry *registry, uint64_t id, SpanFound *found);

/* layers: bit n is set where layer n admits the span, so that it is told of it; 0 where there is no layer. It never
 * changes. span_registry_callsite_of tells which callsite a span has. SPAN_UNKNOWN where the span isn't open. */
uint32_t span_registry_layers_of(SpanRegistry *registry, uint64_t id, uint64_t *layers);

/* callsite: the first one that has the level, name and target of the span. A span that was made at a callsite has one.
 * Equal callsites can't be told apart here, and a span that was made by such texts has it too; a heading tells which it
 * was. SPAN_UNKNOWN where the span isn't open; SPAN_NO_SUCH_CALLSITE where there is none. It looks through the
 * callsites, and takes no memory. */
uint32_t span_registry_callsite_of(SpanRegistry *registry, uint64_t id, uint32_t *callsite);

/* What was said of an open span, as span_registry_new_span takes it: meta, one SpanField for each field, and texts:
 * name, target, then each key and its value. What was recorded stands behind what the span was made with. fields and
 * texts are buffers that have room for fields_room of them and for texts_room bytes; the rest of them stays as it was.
 * fields_len, texts_len: how many they are, also where either is more than there is room for; then nothing else is
 * written (SPAN_SHORT_BUFFER). SPAN_UNKNOWN where the span isn't open; SPAN_COUNT_FULL where a text has 2^32 bytes or
 * more, or all together 2^64 or more, as none have that came through this interface. It takes no memory. */
uint32_t span_registry_details(SpanRegistry *registry, uint64_t id, SpanMeta *meta,
    SpanField *fields, size_t fields_room, size_t *fields_len, uint8_t *texts, size_t texts_room, size_t *texts_len);

/* The ids of the open spans, by ascending slot, written to the beginning of a buffer that has room for into_len of
 * them. len: how many they are, also where they are more than that; then nothing is written (SPAN_SHORT_BUFFER). */
uint32_t span_registry_open_ids(SpanRegistry *registry, uint64_t *into, size_t into_len, size_t *len);

/* What keeps a span open: the spans at it or below it that have handles or entries of their own, with how many, by
 * ascending slot. It closes with the last of these, and not before. SPAN_UNKNOWN where the span isn't open. into,
 * into_len, len: as of span_registry_open_ids. */
uint32_t span_registry_holders_of(SpanRegistry *registry, uint64_t id, SpanHeld *into, size_t into_len, size_t *len);

/* The workers that are inside a span, by ascending number, as many as it has entries. A worker that entered it more
 * than once stands here once, and has to leave it as often. SPAN_UNKNOWN where the span isn't open. into, into_len,
 * len: as of span_registry_open_ids. */
uint32_t span_registry_workers_inside(SpanRegistry *registry, uint64_t id, uint32_t *into, size_t into_len,
    size_t *len);

/* The topmost span of the worker's stack that it entered first there, and not again. id: 0 where there is none. */
uint32_t span_registry_current_span(SpanRegistry *registry, uint32_t worker, uint64_t *id);

/* The span at a place of the worker's stack, counted from 0, the one that it entered first; a span that it entered
 * again stands there again. id: 0 where there is no such place. depth: how many places there are. */
uint32_t span_registry_entry(SpanRegistry *registry, uint32_t worker, size_t place, uint64_t *id, size_t *depth);

uint32_t span_registry_counts(SpanRegistry *registry, SpanCounts *counts);

/* How often a call was refused with SPAN_BACKLOG. The number stays at its greatest value. */
uint32_t span_registry_times_full(SpanRegistry *registry, uint64_t *times);

/* How many headings were lost, of calls that were accepted all the same: their ring had no place, or memory was refused
 * to what the call was about. The number stays at its greatest value. SPAN_BAD_DATA where no headings are kept. */
uint32_t span_registry_headings_lost(SpanRegistry *registry, uint64_t *lost);

/* The next line, which is UTF-8, without a newline; the rest of the buffer stays as it was. Where none is at hand,
 * batches are taken out of the ring until one is, also where the status is SPAN_NO_LINE or SPAN_SHORT_BUFFER then. A
 * line that doesn't fit stays the next one. */
uint32_t span_drain_line(SpanDrain *drain, uint32_t *layer, uint8_t *into, size_t into_len, size_t *len);

/* The next line as of span_drain_line, but its note is told in its place. texts: the path (the names of the span and of
 * what is above it that the layer admits, root first, with ':' between them; '-' for none), an event's message, then
 * each key and its value. fields, texts and their rooms: as of span_registry_details. A note whose texts aren't told
 * stays the next one: SPAN_COUNT_FULL as there, and SPAN_SHORT_BUFFER, where `note` is told all the same. Since no path
 * is empty, a call with no room for texts tells of which layer the next note is; then its heading may be asked for
 * (span_drain_heading), and it or its line be taken. Each accepted call is one batch, in their order: its number is
 * `calls` of span_registry_counts before the call. */
uint32_t span_drain_note(SpanDrain *drain, SpanNote *note, SpanField *fields, size_t fields_room, size_t *fields_len,
    uint8_t *texts, size_t texts_room, size_t *texts_len);

/* The heading of the next note, which stays the next one: what the note doesn't tell of its call. value_kinds: of a
 * record and of an event those that were said for it, of any other note those that were said for the call that made its
 * span. They needn't be as many as the note's fields: an enter and an exit have none, and a close has recorded ones
 * behind those that the span was made with, whose kinds their records told. texts: name, target. value_kinds, texts and
 * their rooms: as fields, texts and theirs of span_registry_details, but with SPAN_SHORT_BUFFER `heading` is told all
 * the same. Where no line is at hand, batches are taken as of span_drain_line, whatever the status is. A heading comes
 * right after the notes of its call. So while another thread is still in the call, SPAN_NO_LINE may come for a note
 * that is there, as span_drain_note with no room for texts tells: ask again. Where no thread is in it any longer,
 * SPAN_NO_LINE says that the heading was lost and that none behind it is there; with one behind it that is
 * SPAN_UNKNOWN, as it is where the heading of the call that made the span was lost. Of several things the status tells
 * the first: SPAN_EMPTY_HANDLE; SPAN_BAD_DATA where no headings are kept, and then no batch is taken;
 * SPAN_OUT_OF_MEMORY where an earlier span's heading can't be kept, also with no line: those behind it stay in the
 * ring, so ask again; SPAN_NO_LINE or SPAN_UNKNOWN; SPAN_COUNT_FULL as of span_registry_details; SPAN_SHORT_BUFFER. */
uint32_t span_drain_heading(SpanDrain *drain, SpanHeading *heading, uint8_t *value_kinds, size_t value_kinds_room,
    size_t *value_kinds_len, uint8_t *texts, size_t texts_room, size_t *texts_len);

/* Gives up the lines that are left of the batch whose lines are at hand. Where none is at hand, batches are taken as of
 * span_drain_line, and all lines of the first batch that has one are given up. skipped: how many they were.
 * SPAN_NO_LINE where there was none. */
uint32_t span_drain_skip_batch(SpanDrain *drain, size_t *skipped);

/* How many batches were taken, and how many notes were missed for want of memory. */
uint32_t span_drain_counts(SpanDrain *drain, uint64_t *batches, uint64_t *missed);

/* Gives the memory back, and the handle is empty. The registry may still be used until the ring is full. */
uint32_t span_drain_free(SpanDrain *drain);

/* What a status says, in English, without a newline. SPAN_BAD_DATA where the number is no status. */
uint32_t span_status_text(uint32_t status, uint8_t *into, size_t into_len, size_t *len);

#ifdef __cplusplus
}
#endif

#endif
