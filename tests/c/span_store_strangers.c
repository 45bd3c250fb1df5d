/* Strangers' ids: passes each call on a store that takes an id ids of every kind that no span has, and numbers that are
 * no id at all. Each answers SPAN_STORE_UNKNOWN, writes nothing and leaves the store as it was. The last line that is
 * printed is 'N passed, M failed'. */
#include "span_store.h"

#include <stdint.h>
#include <stdio.h>
#include <stdlib.h>

static int passed, failed;

static void check(int good, const char *what, uint64_t id) {
    if (good) {
        passed++;
    } else {
        failed++;
        printf("id %llu: %s\n", (unsigned long long)id, what);
    }
}

enum { GENERATION = 1 << 24, OPEN = GENERATION + 2, CLOSING = 4 };

/* what the store below has no span of */
static const struct {
    uint64_t id;
    const char *kind;
} strangers[] = {
    {0, "no id"},
    {1, "ended, of a slot that is retired"},
    {GENERATION + 1, "the retired slot's last one"},
    {2 * GENERATION + 1, "the retired slot at a generation past its last"},
    {2, "ended, of the open span's slot"},
    {2 * GENERATION + 2, "the open span's slot at its next generation"},
    {3, "ended, of a slot that is free"},
    {GENERATION + 3, "the free slot's next one"},
    {GENERATION + 4, "the closing span's slot at its next generation"},
    {5, "a slot that was never used"},
    {6, "a slot beyond the limit"},
    {GENERATION, "the last slot of the layout"},
    {UINT64_C(1) << 56, "the greatest id"},
    {(UINT64_C(1) << 56) + 1, "one beyond the layout"},
    {(UINT64_C(1) << 56) + OPEN, "the open span's id, beyond the layout"},
    {UINT64_C(1) << 63, "far beyond the layout"},
    {UINT64_MAX, "the greatest number"},
};

static SpanStore store;

static int makes(uint64_t wanted) {
    uint64_t id = 0;
    return span_store_add(&store, 0, wanted, ~wanted, &id) == SPAN_STORE_OK && id == wanted;
}

static int closes(uint64_t id) {
    uint32_t closing = 0;
    return span_store_release(&store, id, &closing) == SPAN_STORE_OK && closing == 1;
}

static int ends(uint64_t id) {
    uint64_t parent = 99;
    return span_store_ended(&store, id, &parent) == SPAN_STORE_OK && parent == 0;
}

static int passes(uint64_t id) {
    return makes(id) && closes(id) && ends(id);
}

/* slot 0 is retired, slot 1 has its second span, which is open, slot 2 is free again, slot 3 has a span that is
 * closing, slot 4 was never used */
static int opens_with_a_past(void) {
    return span_store_new(&store, 5, 1, 9) == SPAN_STORE_OK && passes(1) && passes(GENERATION + 1) && passes(2)
        && makes(OPEN) && makes(3) && makes(CLOSING) && closes(CLOSING) && closes(3) && ends(3);
}

static int is_as_it_was(uint64_t id, uint32_t handles) {
    SpanStoreFound found;
    return span_store_find(&store, id, &found) == SPAN_STORE_OK && found.parent == 0 && found.bits == id
        && found.word == ~id && found.handles == handles && found.children == 0;
}

static int nothing_changed(void) {
    SpanStoreCounts counts;
    return is_as_it_was(OPEN, 1) && is_as_it_was(CLOSING, 0) && span_store_counts(&store, &counts) == SPAN_STORE_OK
        && counts.handles == 1 && counts.spans == 2;
}

/* the list has the two that are there, and no other */
static int only_these_are_told(void) {
    SpanStoreDetails into[5];
    size_t len = 0;
    return span_store_details(&store, into, 5, &len) == SPAN_STORE_OK && len == 2 && into[0].id == OPEN
        && into[0].closing == 0 && into[1].id == CLOSING && into[1].closing == 1;
}

static void refuses(uint64_t id) {
    SpanStoreFound found = {1, 2, 3, 4, 5};
    uint64_t told = 99;
    uint32_t closing = 98;
    /* under 0 a root is made */
    check(id == 0 || span_store_add(&store, id, 0, 0, &told) == SPAN_STORE_UNKNOWN, "add", id);
    check(span_store_keep(&store, id) == SPAN_STORE_UNKNOWN, "keep", id);
    check(span_store_release(&store, id, &closing) == SPAN_STORE_UNKNOWN, "release", id);
    check(span_store_ended(&store, id, &told) == SPAN_STORE_UNKNOWN, "ended", id);
    check(span_store_find(&store, id, &found) == SPAN_STORE_UNKNOWN, "find", id);
    check(told == 99 && closing == 98 && found.parent == 1 && found.bits == 2 && found.word == 3 && found.handles == 4
        && found.children == 5, "nothing was written", id);
}

int main(void) {
    check(opens_with_a_past() && nothing_changed(), "the store", OPEN);
    for (size_t row = 0; row < sizeof strangers / sizeof strangers[0]; row++) {
        refuses(strangers[row].id);
        check(nothing_changed() && only_these_are_told(), strangers[row].kind, strangers[row].id);
    }
    check(passes(GENERATION + 3), "the next span", GENERATION + 3);
    check(span_store_free(&store) == SPAN_STORE_OK, "it is freed", OPEN);
    printf("%d passed, %d failed\n", passed, failed);
    return failed == 0 ? EXIT_SUCCESS : EXIT_FAILURE;
}
