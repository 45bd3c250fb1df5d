/* Which spans are open, and what keeps them open: ids, holders and workers that go into buffers. The last line that it
 * prints is 'N passed, M failed'. It is linked with --wrap=malloc and --wrap=realloc, so that memory can be refused. */
#include "checks.h"
#include "span_registry.h"

#include <stdio.h>
#include <stdlib.h>

static SpanRegistry registry;
static SpanDrain drain;
static const SpanLayer no_layers[1];
static const SpanRule no_rules[1];
static const SpanField no_fields[1];

static void open_registry(void) {
    const SpanLimits limits = {16, 4294967295u, 4294967295u, 3, 64};
    CHECK(span_registry_new(&registry, &drain, &limits, no_layers, 0, no_rules, 0,
        (const uint8_t *)"", 0) == SPAN_OK);
}

static void close_both(void) {
    CHECK(span_registry_free(&registry) == SPAN_OK);
    CHECK(span_drain_free(&drain) == SPAN_OK);
}

/* a span under a parent, a root where that is 0 */
static uint64_t make_span(uint64_t parent) {
    const SpanMeta meta = {2, 1, 1};
    uint64_t id = 0;
    CHECK(span_registry_new_span(&registry, 0, parent == 0 ? SPAN_ROOT : SPAN_UNDER, parent, &meta,
        no_fields, 0, (const uint8_t *)"at", 2, &id) == SPAN_OK);
    return id;
}

static uint32_t give_back(uint64_t id) {
    uint32_t closed = 9;
    CHECK(span_registry_try_close(&registry, 0, id, &closed) == SPAN_OK);
    return closed;
}

static void enter(uint32_t worker, uint64_t id) {
    uint32_t first;
    CHECK(span_registry_enter(&registry, worker, id, &first) == SPAN_OK);
}

static uint32_t leave(uint32_t worker, uint64_t id) {
    uint32_t closed = 9;
    CHECK(span_registry_exit(&registry, worker, id, &closed) == SPAN_OK);
    return closed;
}

/* a root with two children and one grandchild, of which workers 0 and 2 are inside the first child, 2 twice */
static void make_tree(uint64_t ids[4]) {
    ids[0] = make_span(0);
    ids[1] = make_span(ids[0]);
    ids[2] = make_span(ids[0]);
    ids[3] = make_span(ids[1]);
    enter(0, ids[1]);
    enter(2, ids[1]);
    enter(2, ids[1]);
}

static void test_open_ids(void) {
    uint64_t ids[4], into[6] = {91, 92, 93, 94, 95, 96};
    size_t len = 99;
    open_registry();
    CHECK(span_registry_open_ids(&registry, into, 6, &len) == SPAN_OK && len == 0 && into[0] == 91);
    make_tree(ids);
    CHECK(span_registry_open_ids(&registry, into, 3, &len) == SPAN_SHORT_BUFFER && len == 4 && into[0] == 91);
    CHECK(span_registry_open_ids(&registry, into, 6, &len) == SPAN_OK && len == 4);
    for (int at = 0; at < 4; at++)
        CHECK(into[at] == ids[at]);
    CHECK(into[4] == 95 && into[5] == 96);
    CHECK(give_back(ids[2]) == 1);
    CHECK(span_registry_open_ids(&registry, into, 6, &len) == SPAN_OK && len == 3);
    CHECK(into[1] == ids[1] && into[2] == ids[3] && into[3] == ids[3]);
    allocations_left = 0;
    CHECK(span_registry_open_ids(&registry, into, 2, &len) == SPAN_OUT_OF_MEMORY && len == 3);
    allocations_left = -1;
    close_both();
    CHECK(span_registry_open_ids(&registry, into, 6, &len) == SPAN_EMPTY_HANDLE && len == 3 && into[0] == ids[0]);
}

static void test_holders(void) {
    uint64_t ids[4];
    SpanHeld into[4] = {{9, 9, 9}, {9, 9, 9}, {9, 9, 9}, {9, 9, 9}};
    size_t len = 99;
    open_registry();
    make_tree(ids);
    CHECK(give_back(ids[0]) == 0);
    CHECK(give_back(ids[1]) == 0);
    CHECK(span_registry_holders_of(&registry, ids[1], into, 1, &len) == SPAN_SHORT_BUFFER && len == 2);
    CHECK(into[0].id == 9);
    CHECK(span_registry_holders_of(&registry, ids[1], into, 4, &len) == SPAN_OK && len == 2);
    CHECK(into[0].id == ids[1] && into[0].handles == 0 && into[0].entries == 2);
    CHECK(into[1].id == ids[3] && into[1].handles == 1 && into[1].entries == 0);
    CHECK(into[2].id == 9);
    CHECK(span_registry_holders_of(&registry, ids[0], into, 4, &len) == SPAN_OK && len == 3);
    CHECK(into[0].id == ids[1] && into[1].id == ids[2] && into[2].id == ids[3]);
    CHECK(span_registry_holders_of(&registry, 0, into, 4, &len) == SPAN_UNKNOWN && len == 3);
    CHECK(span_registry_holders_of(&registry, ids[3] + 16777216, into, 4, &len) == SPAN_UNKNOWN && len == 3);
    /* each of its three lists */
    for (long left = 0; left < 3; left++) {
        allocations_left = left;
        CHECK(span_registry_holders_of(&registry, ids[1], into, 4, &len) == SPAN_OUT_OF_MEMORY && len == 3);
        allocations_left = -1;
    }
    CHECK(into[0].id == ids[1] && into[2].id == ids[3]);
    /* it closes with the last of them, and not before */
    CHECK(leave(0, ids[1]) == 0);
    CHECK(leave(2, ids[1]) == 0);
    CHECK(leave(2, ids[1]) == 0);
    CHECK(span_registry_holders_of(&registry, ids[1], into, 4, &len) == SPAN_OK && len == 1 && into[0].id == ids[3]);
    CHECK(give_back(ids[3]) == 1);
    CHECK(span_registry_holders_of(&registry, ids[1], into, 4, &len) == SPAN_UNKNOWN);
    close_both();
    CHECK(span_registry_holders_of(&registry, ids[0], into, 4, &len) == SPAN_EMPTY_HANDLE && len == 1);
}

static void test_workers(void) {
    uint64_t ids[4];
    uint32_t into[3] = {7, 8, 9};
    size_t len = 99;
    open_registry();
    make_tree(ids);
    CHECK(span_registry_workers_inside(&registry, ids[0], into, 3, &len) == SPAN_OK && len == 0 && into[0] == 7);
    CHECK(span_registry_workers_inside(&registry, ids[1], into, 1, &len) == SPAN_SHORT_BUFFER && len == 2);
    CHECK(into[0] == 7);
    CHECK(span_registry_workers_inside(&registry, ids[1], into, 3, &len) == SPAN_OK && len == 2);
    CHECK(into[0] == 0 && into[1] == 2 && into[2] == 9);
    CHECK(span_registry_workers_inside(&registry, ids[3] + 1, into, 3, &len) == SPAN_UNKNOWN && len == 2);
    CHECK(span_registry_workers_inside(&registry, 0, into, 3, &len) == SPAN_UNKNOWN && len == 2);
    allocations_left = 0;
    CHECK(span_registry_workers_inside(&registry, ids[1], into, 3, &len) == SPAN_OUT_OF_MEMORY && len == 2);
    allocations_left = -1;
    close_both();
    CHECK(span_registry_workers_inside(&registry, ids[1], into, 3, &len) == SPAN_EMPTY_HANDLE && len == 2);
}

int main(void) {
    test_open_ids();
    test_holders();
    test_workers();
    printf("%d passed, %d failed\n", passed, failed);
    return failed == 0 ? EXIT_SUCCESS : EXIT_FAILURE;
}
