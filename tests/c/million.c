/* A million open spans, in a chain and as children of one root: what keeps the root open is told in less than a second,
 * however they stand. The last line that it prints is 'N passed, M failed'. */
#include "checks.h"
#include "span_registry.h"

#include <stdlib.h>
#include <time.h>

#define MOST 1000000u
#define RING 65536u

static SpanRegistry registry;
static SpanDrain drain;
static uint64_t *ids;
static SpanHeld *held;
static const SpanLayer no_layers[1];
static const SpanRule no_rules[1];
static const SpanField no_fields[1];

static void open_registry(void) {
    const SpanLimits limits = {MOST, 4294967295u, 4294967295u, 1, RING};
    CHECK(span_registry_new(&registry, &drain, &limits, no_layers, 0, no_rules, 0,
        (const uint8_t *)"", 0) == SPAN_OK);
}

static void close_both(void) {
    CHECK(span_registry_free(&registry) == SPAN_OK);
    CHECK(span_drain_free(&drain) == SPAN_OK);
}

/* each call takes a place of the ring, though no layer is told of it */
static void empty_the_ring(void) {
    uint8_t into[1];
    uint32_t layer;
    size_t len;
    CHECK(span_drain_line(&drain, &layer, into, sizeof into, &len) == SPAN_NO_LINE);
}

static int makes_span(uint32_t parent, uint32_t at) {
    const SpanMeta meta = {2, 1, 1};
    uint32_t kind = at == 0 ? SPAN_ROOT : SPAN_UNDER;
    return span_registry_new_span(&registry, 0, kind, at == 0 ? 0 : ids[parent], &meta, no_fields, 0,
        (const uint8_t *)"at", 2, &ids[at]) == SPAN_OK;
}

static int closes(uint32_t at, uint32_t wanted) {
    uint32_t closed = 9;
    return span_registry_try_close(&registry, 0, ids[at], &closed) == SPAN_OK && closed == wanted;
}

/* how many hold the root, and what it took: the processor's time, which other programs don't lengthen */
static size_t holders_of_root(void) {
    size_t len = 0;
    clock_t start = clock();
    CHECK(span_registry_holders_of(&registry, ids[0], held, MOST, &len) == SPAN_OK);
    CHECK((double)(clock() - start) / CLOCKS_PER_SEC < 1);
    return len;
}

static void test_chain(void) {
    size_t len = 0;
    uint32_t well = 1;
    open_registry();
    for (uint32_t at = 0; at < MOST; at++) {
        well &= makes_span(at - (at > 0), at);
        if (at > 0)
            well &= closes(at - 1, 0);
        if (at % (RING / 4) == 0)
            empty_the_ring();
    }
    CHECK(well);
    empty_the_ring();
    CHECK(holders_of_root() == 1);
    CHECK(held[0].id == ids[MOST - 1] && held[0].handles == 1 && held[0].entries == 0);
    CHECK(span_registry_open_ids(&registry, ids, MOST, &len) == SPAN_OK && len == MOST);
    CHECK(closes(MOST - 1, 1));
    CHECK(span_registry_open_ids(&registry, ids, MOST, &len) == SPAN_OK && len == 0);
    close_both();
}

static void test_children(void) {
    uint32_t well = 1;
    open_registry();
    for (uint32_t at = 0; at < MOST; at++) {
        well &= makes_span(0, at);
        if (at % (RING / 4) == 0)
            empty_the_ring();
    }
    CHECK(well);
    empty_the_ring();
    CHECK(holders_of_root() == MOST);
    CHECK(held[MOST - 1].id == ids[MOST - 1]);
    CHECK(closes(0, 0));
    CHECK(holders_of_root() == MOST - 1);
    close_both();
}

int main(void) {
    ids = malloc(MOST * sizeof *ids);
    held = malloc(MOST * sizeof *held);
    if (!ids || !held)
        return 2;
    test_chain();
    test_children();
    free(ids);
    free(held);
    printf("%d passed, %d failed\n", passed, failed);
    return failed != 0;
}
