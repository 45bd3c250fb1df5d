/* What the C programs on headings share: short forms of the calls, and what is told of a note's heading. */
#ifndef HEADINGS_H
#define HEADINGS_H

#include "checks.h"
#include "span_registry.h"

#include <stdio.h>
#include <string.h>

/* ---- short forms of the calls */

/* what a note is about */
enum { NEW, RECORD, EVENT, ENTER, EXIT, CLOSE };

static SpanRegistry registry;
static SpanDrain drain;
static SpanHeading heading;
static uint8_t kinds[8], texts[40];
static size_t kinds_len, texts_len;
static const SpanField fields[2] = {{1, 2}, {2, 0}};
static const SpanLimits usual_limits = {16, 4294967295u, 4294967295u, 2, 64};

static inline const uint8_t *bytes(const char *text) {
    return (const uint8_t *)text;
}

/* two layers: the first sees all up to DEBUG, and of spans what `wanted` has, the other the records and events of the
 * target `t` up to INFO */
static inline uint32_t open_one(SpanLimits limits, uint32_t wanted, int keeps) {
    const SpanLayer layers[] = {{0, wanted, 1}, {1, 0, 1}};
    const SpanRule rules[] = {{0, 3}, {1, 2}};
    return (keeps ? span_registry_new_with_headings : span_registry_new)(&registry, &drain, &limits, layers, 2, rules,
        2, bytes("t"), 1);
}

static inline void open_keeping(uint32_t slots, uint32_t ring, uint32_t wanted) {
    const SpanLimits limits = {slots, 4294967295u, 4294967295u, 2, ring};
    CHECK(open_one(limits, wanted, 1) == SPAN_OK);
}

static inline void close_both(void) {
    CHECK(span_registry_free(&registry) == SPAN_OK);
    CHECK(span_drain_free(&drain) == SPAN_OK);
}

/* says this stamp, and the kinds that the digits are */
static inline uint32_t say(uint64_t stamp, const char *digits) {
    uint8_t said[8] = {0};
    const size_t len = strlen(digits);
    for (size_t at = 0; at < len; at++)
        said[at] = (uint8_t)(digits[at] - '0');
    return span_registry_say_of_calls(&registry, stamp, said, len);
}

/* a span of the target `t` with the fields that `pairs` are, under a parent, a root where that is 0 */
static inline uint64_t make_span(uint64_t parent, uint32_t level, const char *name, size_t count, const char *pairs) {
    const SpanMeta meta = {level, (uint32_t)strlen(name), 1};
    char all[40];
    uint64_t id = 99;
    const int len = snprintf(all, sizeof all, "%st%s", name, pairs);
    CHECK(span_registry_new_span(&registry, 0, parent == 0 ? SPAN_ROOT : SPAN_UNDER, parent, &meta, fields, count,
        bytes(all), (size_t)len, &id) == SPAN_OK);
    return id;
}

static inline uint64_t make_span_at(uint64_t parent, uint32_t callsite, size_t count, const char *pairs) {
    uint64_t id = 99;
    CHECK(span_registry_new_span_at(&registry, 0, parent == 0 ? SPAN_ROOT : SPAN_UNDER, parent, callsite, fields, count,
        bytes(pairs), strlen(pairs), &id) == SPAN_OK);
    return id;
}

/* the callsites 0 and 1, of which the second layer admits the first */
static inline void add_callsites(void) {
    const SpanMeta site = {2, 4, 1}, deep = {3, 4, 1};
    uint32_t number = 99;
    CHECK(span_registry_add_callsite(&registry, &site, bytes("sitet"), 5, &number) == SPAN_OK && number == 0);
    CHECK(span_registry_add_callsite(&registry, &deep, bytes("deept"), 5, &number) == SPAN_OK && number == 1);
}

static inline void record(uint64_t id) {
    CHECK(span_registry_record(&registry, 0, id, fields, 1, bytes("kvv"), 3) == SPAN_OK);
}

static inline void share(uint64_t id) {
    CHECK(span_registry_clone_span(&registry, 0, id) == SPAN_OK);
}

static inline void enter(uint64_t id) {
    uint32_t first = 9;
    CHECK(span_registry_enter(&registry, 1, id, &first) == SPAN_OK && first == 1);
}

static inline void leave(uint64_t id) {
    uint32_t closed = 9;
    CHECK(span_registry_exit(&registry, 1, id, &closed) == SPAN_OK && closed == 0);
}

static inline void give_back(uint64_t id, uint32_t closes) {
    uint32_t closed = 9;
    CHECK(span_registry_try_close(&registry, 0, id, &closed) == SPAN_OK && closed == closes);
}

/* an event of the target `u` in no span, which the first layer alone sees */
static inline uint32_t tell_event(void) {
    const SpanMeta meta = {1, 1, 1};
    return span_registry_event_in(&registry, 0, SPAN_ROOT, 0, &meta, 2, fields, 0, bytes("nuhi"), 4);
}

static inline void check_lost(uint64_t wanted) {
    uint64_t lost = 99;
    CHECK(span_registry_headings_lost(&registry, &lost) == SPAN_OK && lost == wanted);
}

/* ---- what is told */

/* what a heading has to tell; callsite: -1 for none; kinds: a digit for each */
typedef struct Told {
    uint64_t stamp, parent;
    int callsite;
    uint32_t level;
    const char *name, *target, *kinds;
} Told;

static inline uint32_t tell(size_t room, size_t texts_room) {
    return span_drain_heading(&drain, &heading, kinds, room, &kinds_len, texts, texts_room, &texts_len);
}

static inline void clear(void) {
    memset(&heading, 7, sizeof heading);
    memset(kinds, 7, sizeof kinds);
    memset(texts, 7, sizeof texts);
    kinds_len = 98, texts_len = 99;
}

/* whether nothing is told, and why; the line is that of the test */
static inline void check_untold(uint32_t status, int line) {
    clear();
    check(tell(8, 40) == status, "the status", line);
    check(heading.stamp == 0x0707070707070707 && heading.target_len == 0x07070707, "no numbers are told", line);
    check(kinds_len == 98 && texts_len == 99, "no lengths are told", line);
    check(kinds[0] == 7 && texts[0] == 7, "nothing is written", line);
}

#define CHECK_UNTOLD(status) check_untold(status, __LINE__)

static inline void check_numbers(const Told *told, int line) {
    const int has_callsite = told->callsite >= 0;
    check(heading.stamp == told->stamp, "the stamp", line);
    check(heading.parent == told->parent, "the parent", line);
    check(heading.has_callsite == (has_callsite ? 1 : 0), "whether there is a callsite", line);
    check(heading.callsite == (has_callsite ? (uint32_t)told->callsite : 0), "the callsite", line);
    check(heading.level == told->level, "the level", line);
    check(heading.name_len == strlen(told->name) && heading.target_len == strlen(told->target), "the lengths", line);
    check(kinds_len == strlen(told->kinds), "how many kinds", line);
    check(texts_len == strlen(told->name) + strlen(told->target), "how many bytes", line);
}

/* whether this was told, and nothing was written behind it */
static inline void check_told(const Told *told, int line) {
    char all[40];
    const size_t count = strlen(told->kinds);
    const int len = snprintf(all, sizeof all, "%s%s", told->name, told->target);
    int same = kinds[count] == 7;
    for (size_t at = 0; at < count; at++)
        same &= kinds[at] == told->kinds[at] - '0';
    check_numbers(told, line);
    check(same, "the kinds", line);
    check(memcmp(texts, all, (size_t)len) == 0 && texts[len] == 7, "the texts", line);
}

/* returns how many fields the note has */
static inline size_t take_note(uint64_t batch, uint64_t id, uint32_t layer, uint32_t kind, int line) {
    SpanNote note = {99, 99, 99, 99, 99, 99, 99, 99};
    SpanField into[4];
    uint8_t all[80];
    size_t count = 99, len;
    check(span_drain_note(&drain, &note, into, 4, &count, all, sizeof all, &len) == SPAN_OK, "a note", line);
    check(note.batch == batch && note.id == id && note.layer == layer && note.kind == kind, "which note", line);
    return count;
}

#define TAKE_NOTE(batch, id, layer, kind) take_note(batch, id, layer, kind, __LINE__)

/* whether the next note is this one, and has this heading */
static inline size_t check_next(int line, uint64_t batch, uint64_t id, uint32_t layer, uint32_t kind, Told told) {
    clear();
    check(tell(7, 39) == SPAN_OK, "a heading", line);
    check_told(&told, line);
    return take_note(batch, id, layer, kind, line);
}

#define CHECK_NEXT(...) check_next(__LINE__, __VA_ARGS__)

static inline void check_counts(uint64_t wanted, uint64_t wanted_missed, int line) {
    uint64_t batches = 99, missed = 99;
    check(span_drain_counts(&drain, &batches, &missed) == SPAN_OK, "counts", line);
    check(batches == wanted && missed == wanted_missed, "how many batches were taken, and notes missed", line);
}

#define CHECK_COUNTS(batches, missed) check_counts(batches, missed, __LINE__)

#endif
