/* Strangers' ids: passes each call that takes an id ids of every kind that no span has, and numbers that are no id at
 * all. Each answers SPAN_UNKNOWN, writes nothing and leaves the registry as it was. The last line that is printed is
 * 'N passed, M failed'. */
#include "span_registry.h"

#include <stdint.h>
#include <stdio.h>
#include <stdlib.h>
#include <string.h>

static int passed, failed;

static void check(int good, const char *what, uint64_t id) {
    if (good) {
        passed++;
    } else {
        failed++;
        printf("id %llu: %s\n", (unsigned long long)id, what);
    }
}

enum { GENERATION = 1 << 24, OPEN = GENERATION + 2 };

/* what the registry below has no open span of */
static const struct {
    uint64_t id;
    const char *kind;
} strangers[] = {
    {0, "no id"},
    {1, "closed, of a slot that is retired"},
    {GENERATION + 1, "the retired slot's last one"},
    {2 * GENERATION + 1, "the retired slot at a generation past its last"},
    {2, "closed, of the open span's slot"},
    {2 * GENERATION + 2, "the open span's slot at its next generation"},
    {3, "closed, of a slot that is free"},
    {GENERATION + 3, "the free slot's next one"},
    {4, "a slot that was never used"},
    {5, "a slot beyond the limit"},
    {GENERATION, "the last slot of the layout"},
    {UINT64_C(1) << 56, "the greatest id"},
    {(UINT64_C(1) << 56) + 1, "one beyond the layout"},
    {UINT64_C(1) << 63, "far beyond the layout"},
    {UINT64_MAX, "the greatest number"},
};

static SpanRegistry registry;
static SpanDrain drain;
static const SpanField field = {1, 1};
static const uint8_t *const texts = (const uint8_t *)"aappkv";

static uint32_t make_span(uint32_t kind, uint64_t parent, uint64_t *id) {
    const SpanMeta meta = {2, 1, 3};
    return span_registry_new_span(&registry, 0, kind, parent, &meta, &field, 1, texts, 6, id);
}

static int makes_and_closes(uint64_t wanted) {
    uint64_t id = 0;
    uint32_t closed = 0;
    return make_span(SPAN_ROOT, 0, &id) == SPAN_OK && id == wanted
        && span_registry_try_close(&registry, 0, id, &closed) == SPAN_OK && closed == 1;
}

/* slot 0 is retired, slot 1 has its second span, which is open and the worker is inside it, slot 2 is free again, slot
 * 3 was never used */
static int opens_with_a_past(void) {
    const SpanLimits limits = {4, 1, 9, 1, 64};
    const SpanLayer layer = {0, SPAN_KINDS_ALL, 1};
    const SpanRule rule = {0, 4};
    uint64_t open = 0;
    uint32_t first = 0;
    return span_registry_new(&registry, &drain, &limits, &layer, 1, &rule, 1, texts, 0) == SPAN_OK
        && makes_and_closes(1) && makes_and_closes(GENERATION + 1) && makes_and_closes(2)
        && make_span(SPAN_ROOT, 0, &open) == SPAN_OK && open == OPEN
        && span_registry_enter(&registry, 0, open, &first) == SPAN_OK && first == 1
        && makes_and_closes(3);
}

/* all that can be seen of the registry; both structs are without padding */
typedef struct Seen {
    SpanCounts counts;
    SpanFound open;
    uint64_t current;
} Seen;

static Seen seen(void) {
    Seen now;
    memset(&now, 0, sizeof now);
    check(span_registry_counts(&registry, &now.counts) == SPAN_OK, "counts", OPEN);
    check(span_registry_find(&registry, OPEN, &now.open) == SPAN_OK, "find", OPEN);
    check(span_registry_current_span(&registry, 0, &now.current) == SPAN_OK, "current", OPEN);
    return now;
}

static void refuses(uint64_t id) {
    SpanFound found = {1, 2, 3, 4, 5};
    SpanHeld holder = {6, 7, 8};
    uint64_t made = 99;
    uint32_t answer = 98, inside = 97, callsite = 95;
    size_t len = 96;
    check(make_span(SPAN_UNDER, id, &made) == SPAN_UNKNOWN, "new_span", id);
    check(span_registry_clone_span(&registry, 0, id) == SPAN_UNKNOWN, "clone_span", id);
    check(span_registry_enter(&registry, 0, id, &answer) == SPAN_UNKNOWN, "enter", id);
    check(span_registry_exit(&registry, 0, id, &answer) == SPAN_UNKNOWN, "exit", id);
    check(span_registry_record(&registry, 0, id, &field, 1, texts + 4, 2) == SPAN_UNKNOWN, "record", id);
    check(span_registry_try_close(&registry, 0, id, &answer) == SPAN_UNKNOWN, "try_close", id);
    check(span_registry_find(&registry, id, &found) == SPAN_UNKNOWN, "find", id);
    check(span_registry_holders_of(&registry, id, &holder, 1, &len) == SPAN_UNKNOWN, "holders_of", id);
    check(span_registry_workers_inside(&registry, id, &inside, 1, &len) == SPAN_UNKNOWN, "workers_inside", id);
    check(span_registry_callsite_of(&registry, id, &callsite) == SPAN_UNKNOWN, "callsite_of", id);
    check(made == 99 && answer == 98 && found.parent == 1 && found.count == 4, "nothing was written", id);
    check(holder.id == 6 && holder.entries == 8 && inside == 97 && len == 96, "nothing was listed", id);
    check(callsite == 95, "no callsite was told", id);
}

static unsigned lines(void) {
    uint8_t into[256];
    uint32_t layer;
    size_t len;
    unsigned count = 0;
    while (span_drain_line(&drain, &layer, into, sizeof into, &len) == SPAN_OK)
        count++;
    return count;
}

int main(void) {
    check(opens_with_a_past(), "the registry", OPEN);
    check(lines() == 10, "the lines of five spans, four of them closed, and one entered", OPEN);
    for (size_t row = 0; row < sizeof strangers / sizeof strangers[0]; row++) {
        Seen before = seen();
        refuses(strangers[row].id);
        Seen after = seen();
        check(memcmp(&before, &after, sizeof before) == 0 && lines() == 0, strangers[row].kind, strangers[row].id);
    }
    check(makes_and_closes(GENERATION + 3), "the next span", GENERATION + 3);
    check(span_registry_free(&registry) == SPAN_OK && span_drain_free(&drain) == SPAN_OK, "both are freed", OPEN);
    printf("%d passed, %d failed\n", passed, failed);
    return failed == 0 ? EXIT_SUCCESS : EXIT_FAILURE;
}
