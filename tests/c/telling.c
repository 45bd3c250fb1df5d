/* Which spans a call closed, the places of a stack, how often the ring was full, up to which level something is wanted,
 * which layers admit a span, which span follows from which, what was said of a span, and lines that are given up: what
 * goes into buffers, and what of them stays. The last line that it prints is 'N passed, M failed'. It is linked with
 * --wrap=malloc and --wrap=realloc, so that memory can be refused. */
#include "checks.h"
#include "span_registry.h"

#include <stdio.h>
#include <stdlib.h>
#include <string.h>

static SpanRegistry registry;
static SpanDrain drain;
static const SpanLayer no_layers[1];
static const SpanRule no_rules[1];
static const SpanField no_fields[1];

static void open_with_ring(uint32_t ring) {
    const SpanLimits limits = {16, 4294967295u, 4294967295u, 3, ring};
    CHECK(span_registry_new(&registry, &drain, &limits, no_layers, 0, no_rules, 0,
        (const uint8_t *)"", 0) == SPAN_OK);
}

static void close_both(void) {
    CHECK(span_registry_free(&registry) == SPAN_OK);
    CHECK(span_drain_free(&drain) == SPAN_OK);
}

/* a span named `a` of the target `t`, at INFO, under a parent, a root where that is 0 */
static uint64_t make_span(uint64_t parent) {
    const SpanMeta meta = {2, 1, 1};
    uint64_t id = 0;
    CHECK(span_registry_new_span(&registry, 0, parent == 0 ? SPAN_ROOT : SPAN_UNDER, parent, &meta,
        no_fields, 0, (const uint8_t *)"at", 2, &id) == SPAN_OK);
    return id;
}

/* a root, its child and its grandchild, of which the root and the child are held by what is below them alone */
static void make_chain(uint64_t ids[3]) {
    uint32_t closed = 9;
    ids[0] = make_span(0);
    ids[1] = make_span(ids[0]);
    ids[2] = make_span(ids[1]);
    CHECK(span_registry_try_close(&registry, 0, ids[0], &closed) == SPAN_OK && closed == 0);
    CHECK(span_registry_try_close(&registry, 0, ids[1], &closed) == SPAN_OK && closed == 0);
}

/* the ids of the chain, child first, and what stays of a buffer of four */
static void check_chain(const uint64_t ids[3], const uint64_t into[4], size_t room) {
    for (size_t at = 0; at < 4; at++)
        CHECK(into[at] == (at < room && at < 3 ? ids[2 - at] : 91 + at));
}

static void test_closing_by_a_handle(size_t room) {
    uint64_t ids[3], into[4] = {91, 92, 93, 94};
    size_t len = 99;
    SpanFound found;
    open_with_ring(64);
    make_chain(ids);
    CHECK(span_registry_clone_span(&registry, 0, ids[2]) == SPAN_OK);
    CHECK(span_registry_try_close_closing(&registry, 0, ids[2], into, room, &len) == SPAN_OK && len == 0);
    check_chain(ids, into, 0);
    CHECK(span_registry_try_close_closing(&registry, 0, ids[2], into, room, &len) == SPAN_OK && len == 3);
    check_chain(ids, into, room);
    for (int at = 0; at < 3; at++)
        CHECK(span_registry_find(&registry, ids[at], &found) == SPAN_UNKNOWN);
    CHECK(span_registry_try_close_closing(&registry, 0, ids[2], into, room, &len) == SPAN_UNKNOWN && len == 3);
    close_both();
}

static void test_closing_by_an_exit(size_t room) {
    uint64_t ids[3], into[4] = {91, 92, 93, 94};
    uint32_t answer = 9;
    size_t len = 99;
    open_with_ring(64);
    make_chain(ids);
    for (int again = 0; again < 2; again++)
        CHECK(span_registry_enter(&registry, 1, ids[2], &answer) == SPAN_OK);
    CHECK(span_registry_try_close(&registry, 0, ids[2], &answer) == SPAN_OK && answer == 0);
    CHECK(span_registry_exit_closing(&registry, 0, ids[2], into, room, &len) == SPAN_NOT_ENTERED && len == 99);
    CHECK(span_registry_exit_closing(&registry, 1, ids[2], into, room, &len) == SPAN_OK && len == 0);
    check_chain(ids, into, 0);
    CHECK(span_registry_exit_closing(&registry, 1, ids[2], into, room, &len) == SPAN_OK && len == 3);
    check_chain(ids, into, room);
    close_both();
}

/* a refused call writes nothing, and nothing closes */
static void test_refused_closing(void) {
    uint64_t ids[3], into[4] = {91, 92, 93, 94};
    uint32_t answer = 9;
    size_t len = 99;
    SpanFound found;
    CHECK(span_registry_exit_closing(&registry, 0, 1, into, 4, &len) == SPAN_EMPTY_HANDLE);
    CHECK(span_registry_try_close_closing(&registry, 0, 1, into, 4, &len) == SPAN_EMPTY_HANDLE);
    open_with_ring(6);
    make_chain(ids);
    CHECK(span_registry_exit_closing(&registry, 3, ids[2], into, 4, &len) == SPAN_NO_SUCH_WORKER);
    CHECK(span_registry_try_close_closing(&registry, 3, ids[2], into, 4, &len) == SPAN_NO_SUCH_WORKER);
    CHECK(span_registry_exit_closing(&registry, 0, 0, into, 4, &len) == SPAN_UNKNOWN);
    CHECK(span_registry_try_close_closing(&registry, 0, ids[2] + 16777216, into, 4, &len) == SPAN_UNKNOWN);
    allocations_left = 0;
    CHECK(span_registry_try_close_closing(&registry, 0, ids[2], into, 4, &len) == SPAN_OUT_OF_MEMORY);
    allocations_left = -1;
    CHECK(span_registry_enter(&registry, 0, ids[2], &answer) == SPAN_OK);
    CHECK(span_registry_try_close_closing(&registry, 0, ids[2], into, 4, &len) == SPAN_BACKLOG);
    CHECK(span_registry_exit_closing(&registry, 0, ids[2], into, 4, &len) == SPAN_BACKLOG);
    check_chain(ids, into, 0);
    CHECK(len == 99);
    CHECK(span_registry_find(&registry, ids[2], &found) == SPAN_OK && found.handles == 1 && found.entries == 1);
    close_both();
}

static void test_entries(void) {
    uint64_t first, second, id = 97;
    uint32_t answer;
    size_t depth = 98;
    open_with_ring(64);
    first = make_span(0);
    second = make_span(0);
    CHECK(span_registry_entry(&registry, 1, 0, &id, &depth) == SPAN_OK && id == 0 && depth == 0);
    CHECK(span_registry_enter(&registry, 1, first, &answer) == SPAN_OK);
    CHECK(span_registry_enter(&registry, 1, second, &answer) == SPAN_OK);
    CHECK(span_registry_enter(&registry, 1, first, &answer) == SPAN_OK && answer == 0);
    CHECK(span_registry_entry(&registry, 1, 0, &id, &depth) == SPAN_OK && id == first && depth == 3);
    CHECK(span_registry_entry(&registry, 1, 1, &id, &depth) == SPAN_OK && id == second && depth == 3);
    CHECK(span_registry_entry(&registry, 1, 2, &id, &depth) == SPAN_OK && id == first && depth == 3);
    CHECK(span_registry_entry(&registry, 1, 3, &id, &depth) == SPAN_OK && id == 0 && depth == 3);
    CHECK(span_registry_entry(&registry, 1, SIZE_MAX, &id, &depth) == SPAN_OK && id == 0 && depth == 3);
    CHECK(span_registry_entry(&registry, 2, 0, &id, &depth) == SPAN_OK && id == 0 && depth == 0);
    id = 97, depth = 98;
    CHECK(span_registry_entry(&registry, 3, 0, &id, &depth) == SPAN_NO_SUCH_WORKER);
    close_both();
    CHECK(span_registry_entry(&registry, 1, 0, &id, &depth) == SPAN_EMPTY_HANDLE);
    CHECK(id == 97 && depth == 98);
}

static void test_times_full(void) {
    uint64_t id, times = 99;
    uint32_t closed, layer;
    uint8_t into[4];
    size_t len;
    CHECK(span_registry_times_full(&registry, &times) == SPAN_EMPTY_HANDLE && times == 99);
    open_with_ring(1);
    CHECK(span_registry_times_full(&registry, &times) == SPAN_OK && times == 0);
    id = make_span(0);
    for (uint64_t more = 1; more < 4; more++) {
        CHECK(span_registry_try_close(&registry, 0, id, &closed) == SPAN_BACKLOG);
        CHECK(span_registry_times_full(&registry, &times) == SPAN_OK && times == more);
    }
    /* of what is refused for another reason the ring isn't asked */
    CHECK(span_registry_try_close(&registry, 0, id + 1, &closed) == SPAN_UNKNOWN);
    CHECK(span_drain_line(&drain, &layer, into, sizeof into, &len) == SPAN_NO_LINE);
    CHECK(span_registry_try_close(&registry, 0, id, &closed) == SPAN_OK && closed == 1);
    CHECK(span_registry_times_full(&registry, &times) == SPAN_OK && times == 3);
    close_both();
}

/* how many levels a registry with these layers tells, which takes no memory */
static void check_levels(const SpanLayer *layers, size_t layers_len, const SpanRule *rules, size_t rules_len,
    uint32_t wanted) {
    const SpanLimits limits = {1, 0, 1, 1, 1};
    uint32_t levels = 9;
    CHECK(span_registry_new(&registry, &drain, &limits, layers, layers_len, rules, rules_len,
        (const uint8_t *)"", 0) == SPAN_OK);
    allocations_left = 0;
    CHECK(span_registry_max_level(&registry, &levels) == SPAN_OK && levels == wanted);
    allocations_left = -1;
    close_both();
}

static void test_max_level(void) {
    const SpanLayer layers[] = {{0, 0, 2}, {1, 0, 0}, {0, SPAN_KINDS_ALL, 1}};
    const SpanRule rules[] = {{0, 1}, {0, 3}, {0, 0}};
    uint32_t levels = 9;
    CHECK(span_registry_max_level(&registry, &levels) == SPAN_EMPTY_HANDLE && levels == 9);
    check_levels(layers, 0, rules, 0, 5);
    check_levels(layers + 1, 1, rules, 0, 0);
    check_levels(layers + 1, 2, rules + 2, 1, 1);
    check_levels(layers, 3, rules, 3, 4);
    for (uint32_t level = 0; level < 5; level++) {
        const SpanRule rule = {0, level};
        check_levels(layers + 2, 1, &rule, 1, level + 1);
    }
}

static void check_layers(uint64_t id, uint32_t status, uint64_t wanted) {
    uint64_t layers = 9;
    allocations_left = 0;
    CHECK(span_registry_layers_of(&registry, id, &layers) == status && layers == wanted);
    allocations_left = -1;
}

static void test_layers_of(void) {
    const SpanLimits limits = {2, 9, 9, 1, 9};
    SpanLayer layers[64];
    SpanRule rules[64];
    uint64_t id;
    uint32_t closed;
    check_layers(1, SPAN_EMPTY_HANDLE, 9);
    open_with_ring(9);
    check_layers(make_span(0), SPAN_OK, 0);
    close_both();
    for (uint32_t layer = 0; layer < 64; layer++) {
        layers[layer] = (SpanLayer){0, 0, 1};
        rules[layer] = (SpanRule){0, 2};
    }
    CHECK(span_registry_new(&registry, &drain, &limits, layers, 64, rules, 64, (const uint8_t *)"", 0) == SPAN_OK);
    check_layers(make_span(0), SPAN_OK, UINT64_MAX);
    close_both();
    /* by its level the first one doesn't admit it, and by its target the last but one; the third has no rule */
    rules[0].level = 1, layers[2].rules = 0, rules[2] = (SpanRule){1, 4};
    CHECK(span_registry_new(&registry, &drain, &limits, layers, 5, rules, 4, (const uint8_t *)"u", 1) == SPAN_OK);
    id = make_span(0);
    check_layers(id, SPAN_OK, 1 << 1 | 1 << 4);
    check_layers(0, SPAN_UNKNOWN, 9);
    check_layers(id + 1, SPAN_UNKNOWN, 9);
    check_layers(UINT64_MAX, SPAN_UNKNOWN, 9);
    CHECK(span_registry_try_close(&registry, 0, id, &closed) == SPAN_OK && closed == 1);
    check_layers(id, SPAN_UNKNOWN, 9);
    close_both();
}

/* a compact layer that lets everything in, and wants no notes of spans but those of records */
static void open_told(void) {
    const SpanLimits limits = {16, 4294967295u, 4294967295u, 2, 64};
    const SpanLayer layer = {0, 0, 1};
    const SpanRule rule = {0, 4};
    CHECK(span_registry_new(&registry, &drain, &limits, &layer, 1, &rule, 1, (const uint8_t *)"", 0) == SPAN_OK);
}

static void check_line(const char *text) {
    uint8_t into[64];
    uint32_t layer = 9;
    size_t len = 0;
    CHECK(span_drain_line(&drain, &layer, into, sizeof into, &len) == SPAN_OK && layer == 0);
    CHECK(len == strlen(text) && memcmp(into, text, len) == 0);
}

static void test_follows_from(void) {
    uint64_t first, second;
    uint32_t closed, layer, status = SPAN_OUT_OF_MEMORY;
    uint8_t into[1];
    size_t len;
    long refused = 0;
    CHECK(span_registry_follows_from(&registry, 0, 1, 2) == SPAN_EMPTY_HANDLE);
    open_told();
    first = make_span(0), second = make_span(0);
    CHECK(first == 1 && second == 2);
    CHECK(span_registry_try_close(&registry, 0, first, &closed) == SPAN_OK && closed == 1);
    CHECK(span_registry_follows_from(&registry, 1, second, first) == SPAN_OK);
    check_line("record 2 w1 a follows_from=1");
    /* any number is taken, also that of the span itself */
    CHECK(span_registry_follows_from(&registry, 0, second, UINT64_MAX) == SPAN_OK);
    check_line("record 2 w0 a follows_from=18446744073709551615");
    CHECK(span_registry_follows_from(&registry, 0, second, 0) == SPAN_OK);
    check_line("record 2 w0 a follows_from=0");
    CHECK(span_registry_follows_from(&registry, 0, second, second) == SPAN_OK);
    check_line("record 2 w0 a follows_from=2");
    CHECK(span_registry_follows_from(&registry, 0, first, second) == SPAN_UNKNOWN);
    CHECK(span_registry_follows_from(&registry, 0, 0, second) == SPAN_UNKNOWN);
    CHECK(span_registry_follows_from(&registry, 0, UINT64_MAX, second) == SPAN_UNKNOWN);
    CHECK(span_registry_follows_from(&registry, 2, second, first) == SPAN_NO_SUCH_WORKER);
    while (status == SPAN_OUT_OF_MEMORY) {
        CHECK(span_drain_line(&drain, &layer, into, sizeof into, &len) == SPAN_NO_LINE);
        allocations_left = refused++;
        status = span_registry_follows_from(&registry, 0, second, 7);
        allocations_left = -1;
    }
    CHECK(status == SPAN_OK && refused > 3);
    check_line("record 2 w0 a follows_from=7");
    close_both();
}

static void check_skipped(uint32_t status, size_t wanted) {
    size_t skipped = 99;
    CHECK(span_drain_skip_batch(&drain, &skipped) == status && skipped == wanted);
}

static void check_counts(uint64_t batches, uint64_t missed_so_far) {
    uint64_t taken = 99, missed = 99;
    CHECK(span_drain_counts(&drain, &taken, &missed) == SPAN_OK && taken == batches && missed == missed_so_far);
}

static void open_both(void) {
    const SpanLimits limits = {16, 4294967295u, 4294967295u, 2, 64};
    const SpanLayer layers[] = {{0, SPAN_KINDS_ALL, 1}, {1, SPAN_KINDS_ALL, 1}};
    const SpanRule rules[] = {{0, 4}, {0, 4}};
    CHECK(span_registry_new(&registry, &drain, &limits, layers, 2, rules, 2, (const uint8_t *)"", 0) == SPAN_OK);
}

static void test_skip_batch(void) {
    uint64_t id;
    uint32_t answer;
    check_skipped(SPAN_EMPTY_HANDLE, 99);
    open_both();
    check_skipped(SPAN_NO_LINE, 99);
    id = make_span(0);
    CHECK(span_registry_enter(&registry, 1, id, &answer) == SPAN_OK);
    CHECK(span_registry_clone_span(&registry, 0, id) == SPAN_OK);
    CHECK(span_registry_exit(&registry, 1, id, &answer) == SPAN_OK);
    check_skipped(SPAN_OK, 2);
    check_counts(1, 0);
    /* what is left of a batch */
    check_line("enter 1 w1 a");
    check_skipped(SPAN_OK, 1);
    check_counts(2, 0);
    /* a batch without a line is passed over */
    check_skipped(SPAN_OK, 2);
    check_counts(4, 0);
    CHECK(span_registry_try_close(&registry, 0, id, &answer) == SPAN_OK && answer == 0);
    check_skipped(SPAN_NO_LINE, 99);
    check_counts(5, 0);
    /* lines are written where those were that were given up */
    CHECK(span_registry_enter(&registry, 0, id, &answer) == SPAN_OK);
    CHECK(span_registry_exit(&registry, 0, id, &answer) == SPAN_OK);
    allocations_left = 0;
    check_skipped(SPAN_OK, 2);
    allocations_left = -1;
    check_counts(6, 0);
    check_line("exit 1 w0 a");
    close_both();
    check_skipped(SPAN_EMPTY_HANDLE, 99);
}

/* A line for which memory is refused is missed and not given up. */
static void test_skip_missed(void) {
    uint64_t id;
    uint32_t answer;
    open_both();
    id = make_span(0);
    /* the first line's text, and the list of the lines */
    allocations_left = 2;
    check_skipped(SPAN_OK, 1);
    allocations_left = -1;
    check_counts(1, 1);
    CHECK(span_registry_enter(&registry, 0, id, &answer) == SPAN_OK);
    check_line("enter 1 w0 a");
    close_both();
}

static SpanMeta told_meta;
static SpanField told_fields[5];
static uint8_t told_texts[40];
static size_t told_count, told_len;

static uint32_t tell(uint64_t id, size_t room, size_t texts_room) {
    return span_registry_details(&registry, id, &told_meta, told_fields, room, &told_count, told_texts, texts_room,
        &told_len);
}

static void clear_told(void) {
    memset(&told_meta, 7, sizeof told_meta);
    memset(told_fields, 7, sizeof told_fields);
    memset(told_texts, 7, sizeof told_texts);
    told_count = 98, told_len = 99;
}

/* whether so many fields and bytes were told and written, with these texts, and nothing behind them */
static void check_told(const SpanMeta *meta, const SpanField *fields, size_t count, const char *texts) {
    const size_t len = strlen(texts);
    CHECK(memcmp(&told_meta, meta, sizeof *meta) == 0 && told_count == count && told_len == len);
    CHECK(memcmp(told_fields, fields, count * sizeof *fields) == 0 && memcmp(told_texts, texts, len) == 0);
    CHECK(told_fields[count].key_len == 0x07070707 && told_texts[len] == 7);
}

/* whether nothing was written */
static void check_unwritten(void) {
    CHECK(told_meta.level == 0x07070707 && told_fields[0].key_len == 0x07070707 && told_texts[0] == 7);
}

static void test_details(void) {
    const SpanMeta meta = {1, 4, 2}, bare = {4, 1, 0};
    const SpanField fields[4] = {{1, 3}, {2, 0}, {1, 1}, {12, 1}};
    uint64_t id, other;
    clear_told();
    CHECK(tell(1, 4, 40) == SPAN_EMPTY_HANDLE);
    open_with_ring(64);
    CHECK(span_registry_new_span(&registry, 0, SPAN_ROOT, 0, &meta, fields, 2, (const uint8_t *)"nametgkvalke", 12, &id)
        == SPAN_OK);
    CHECK(span_registry_new_span(&registry, 0, SPAN_UNDER, id, &bare, no_fields, 0, (const uint8_t *)"b", 1, &other)
        == SPAN_OK);
    CHECK(tell(0, 4, 40) == SPAN_UNKNOWN && tell(other + 1, 4, 40) == SPAN_UNKNOWN);
    CHECK(told_count == 98 && told_len == 99);
    check_unwritten();
    CHECK(tell(id, 1, 12) == SPAN_SHORT_BUFFER && told_count == 2 && told_len == 12);
    CHECK(tell(id, 2, 11) == SPAN_SHORT_BUFFER && told_count == 2 && told_len == 12);
    check_unwritten();
    allocations_left = 0;
    CHECK(tell(id, 2, 12) == SPAN_OK);
    allocations_left = -1;
    check_told(&meta, fields, 2, "nametgkvalke");
    clear_told();
    CHECK(tell(other, 0, 1) == SPAN_OK);
    check_told(&bare, fields, 0, "b");
    /* what was recorded stands behind what it was made with */
    CHECK(span_registry_record(&registry, 0, id, fields + 2, 1, (const uint8_t *)"xy", 2) == SPAN_OK);
    CHECK(span_registry_follows_from(&registry, 0, id, 9) == SPAN_OK);
    clear_told();
    CHECK(tell(id, 0, 0) == SPAN_SHORT_BUFFER && told_count == 4 && told_len == 27);
    check_unwritten();
    CHECK(tell(id, 5, 40) == SPAN_OK);
    check_told(&meta, fields, 4, "nametgkvalkexyfollows_from9");
    /* a span that is made of it has the same said of it */
    CHECK(span_registry_new_span(&registry, 0, SPAN_ROOT, 0, &told_meta, told_fields, told_count, told_texts, told_len,
        &other) == SPAN_OK);
    clear_told();
    CHECK(tell(other, 4, 27) == SPAN_OK);
    check_told(&meta, fields, 4, "nametgkvalkexyfollows_from9");
    close_both();
}

int main(void) {
    for (size_t room = 0; room <= 4; room++) {
        test_closing_by_a_handle(room);
        test_closing_by_an_exit(room);
    }
    test_refused_closing();
    test_entries();
    test_times_full();
    test_max_level();
    test_layers_of();
    test_follows_from();
    test_skip_batch();
    test_skip_missed();
    test_details();
    printf("%d passed, %d failed\n", passed, failed);
    return failed == 0 ? EXIT_SUCCESS : EXIT_FAILURE;
}
