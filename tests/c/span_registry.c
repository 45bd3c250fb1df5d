/* Uses the C interface: what its calls answer and give, and what they leave as it was. The last line that it prints is
 * 'N passed, M failed'. It is linked with --wrap=malloc and --wrap=realloc, so that memory can be refused. */
#include "checks.h"
#include "span_registry.h"

#include <pthread.h>
#include <sched.h>
#include <stdatomic.h>
#include <stdio.h>
#include <stdlib.h>
#include <string.h>

/* ---- short forms of the calls */

static SpanRegistry registry;
static SpanDrain drain;
static const SpanField no_fields[1];
static const SpanLimits usual_limits = {16, 4294967295u, 4294967295u, 2, 64};

static const uint8_t *bytes(const char *text) {
    return (const uint8_t *)text;
}

/* a compact layer that wants all kinds, for all targets up to INFO, and a JSON layer for targets below app::db */
static uint32_t open_usual(SpanLimits limits) {
    const SpanLayer layers[] = {{0, SPAN_KINDS_ALL, 1}, {1, SPAN_KIND_NEW | SPAN_KIND_CLOSE, 1}};
    const SpanRule rules[] = {{0, 2}, {7, 4}};
    return span_registry_new(&registry, &drain, &limits, layers, 2, rules, 2, bytes("app::db"), 7);
}

static void close_both(void) {
    CHECK(span_registry_free(&registry) == SPAN_OK);
    CHECK(span_drain_free(&drain) == SPAN_OK);
    CHECK(registry.at == NULL && drain.at == NULL);
}

/* a span named `a` of the target `app::db` at INFO, with the field k=v */
static uint32_t make_span(uint32_t worker, uint32_t kind, uint64_t parent, uint64_t *id) {
    const SpanMeta meta = {2, 1, 7};
    const SpanField field = {1, 1};
    return span_registry_new_span(&registry, worker, kind, parent, &meta, &field, 1, bytes("aapp::dbkv"), 10, id);
}

static void check_line(uint32_t layer, const char *text, int line) {
    uint8_t into[512];
    uint32_t from = 99;
    size_t len = 0;
    uint32_t status = span_drain_line(&drain, &from, into, sizeof into, &len);
    int good = status == SPAN_OK && from == layer && len == strlen(text) && memcmp(into, text, len) == 0;
    if (!good)
        printf("status %u layer %u: %.*s\n", status, from, status == SPAN_OK ? (int)len : 0, (const char *)into);
    check(good, text, line);
}

#define CHECK_LINE(layer, text) check_line(layer, text, __LINE__)

static void check_no_line(int line) {
    uint8_t into[4] = {1, 2, 3, 4};
    uint32_t layer = 99;
    size_t len = 98;
    check(span_drain_line(&drain, &layer, into, sizeof into, &len) == SPAN_NO_LINE, "no line", line);
    check(layer == 99 && len == 98 && into[0] == 1 && into[3] == 4, "nothing was written", line);
}

/* ---- the tests */

static void test_life_of_a_span(void) {
    uint64_t id = 0, current = 99;
    uint32_t answer = 99;
    SpanFound found;
    SpanCounts counts;
    CHECK(open_usual(usual_limits) == SPAN_OK);
    CHECK(make_span(0, SPAN_ROOT, 0, &id) == SPAN_OK && id == 1);
    CHECK(span_registry_clone_span(&registry, 1, id) == SPAN_OK);
    CHECK(span_registry_enter(&registry, 1, id, &answer) == SPAN_OK && answer == 1);
    CHECK(span_registry_enter(&registry, 1, id, &answer) == SPAN_OK && answer == 0);
    CHECK(span_registry_current_span(&registry, 1, &current) == SPAN_OK && current == id);
    CHECK(span_registry_current_span(&registry, 0, &current) == SPAN_OK && current == 0);
    CHECK(span_registry_find(&registry, id, &found) == SPAN_OK);
    CHECK(found.parent == 0 && found.handles == 2 && found.entries == 1 && found.count == 3 && found.level == 2);
    CHECK(span_registry_counts(&registry, &counts) == SPAN_OK);
    CHECK(counts.made == 1 && counts.closed == 0 && counts.calls == 4 && counts.held == 3);
    CHECK(counts.open == 1 && counts.workers == 2);
    CHECK(span_registry_try_close(&registry, 0, id, &answer) == SPAN_OK && answer == 0);
    CHECK(span_registry_try_close(&registry, 0, id, &answer) == SPAN_OK && answer == 0);
    CHECK(span_registry_exit(&registry, 1, id, &answer) == SPAN_OK && answer == 0);
    CHECK(span_registry_exit(&registry, 1, id, &answer) == SPAN_OK && answer == 1);
    CHECK(span_registry_find(&registry, id, &found) == SPAN_UNKNOWN && found.count == 3);
    CHECK(span_registry_counts(&registry, &counts) == SPAN_OK && counts.closed == 1 && counts.open == 0);
    CHECK(make_span(0, SPAN_ROOT, 0, &id) == SPAN_OK && id == 16777217);
    close_both();
}

static void test_lines(void) {
    const SpanMeta meta = {1, 1, 3};
    const SpanField field = {1, 3};
    uint64_t root = 0, child = 0, batches = 0, missed = 9;
    uint32_t answer = 0;
    CHECK(open_usual(usual_limits) == SPAN_OK);
    check_no_line(__LINE__);
    CHECK(make_span(0, SPAN_CURRENT, 0, &root) == SPAN_OK);
    CHECK(span_registry_enter(&registry, 0, root, &answer) == SPAN_OK);
    CHECK(make_span(0, SPAN_CURRENT, 0, &child) == SPAN_OK);
    CHECK(span_registry_record(&registry, 0, child, &field, 1, bytes("ka=b"), 4) == SPAN_OK);
    CHECK(span_registry_event(&registry, 0, &meta, 2, &field, 1, bytes("eappm\nx1 2"), 10) == SPAN_OK);
    CHECK(span_registry_try_close(&registry, 1, child, &answer) == SPAN_OK && answer == 1);
    CHECK_LINE(0, "new 1 w0 a k=v");
    CHECK_LINE(1, "{\"fields\":[[\"k\",\"v\"]],\"id\":1,\"kind\":\"new\",\"path\":\"a\",\"worker\":0}");
    CHECK_LINE(0, "enter 1 w0 a");
    CHECK_LINE(0, "new 2 w0 a:a k=v");
    CHECK_LINE(1, "{\"fields\":[[\"k\",\"v\"]],\"id\":2,\"kind\":\"new\",\"path\":\"a:a\",\"worker\":0}");
    CHECK_LINE(0, "record 2 w0 a:a k=a=b");
    CHECK_LINE(1, "{\"fields\":[[\"k\",\"a=b\"]],\"id\":2,\"kind\":\"record\",\"path\":\"a:a\",\"worker\":0}");
    CHECK_LINE(0, "event 1 w0 a WARN m\\n x=1 2");
    CHECK_LINE(0, "close 2 w1 a:a k=v k=a=b");
    CHECK(span_registry_free(&registry) == SPAN_OK);
    CHECK_LINE(1, "{\"fields\":[[\"k\",\"v\"],[\"k\",\"a=b\"]],\"id\":2,\"kind\":\"close\",\"path\":\"a:a\","
        "\"worker\":1}");
    check_no_line(__LINE__);
    CHECK(span_drain_counts(&drain, &batches, &missed) == SPAN_OK && batches == 6 && missed == 0);
    CHECK(span_drain_free(&drain) == SPAN_OK);
}

/* an event of the target `app` at WARN, told by the second worker, which is inside of no span at first */
static uint32_t event_in(uint32_t kind, uint64_t parent) {
    const SpanMeta meta = {1, 1, 3};
    return span_registry_event_in(&registry, 1, kind, parent, &meta, 1, no_fields, 0, bytes("eappm"), 5);
}

static void test_events_in(void) {
    const SpanLimits small = {16, 9, 2, 2, 64};
    uint64_t root = 0;
    uint32_t answer = 0;
    SpanFound found;
    CHECK(open_usual(small) == SPAN_OK);
    CHECK(make_span(0, SPAN_ROOT, 0, &root) == SPAN_OK);
    CHECK(span_registry_enter(&registry, 0, root, &answer) == SPAN_OK);
    CHECK(event_in(SPAN_UNDER, root) == SPAN_OK);
    CHECK(event_in(SPAN_ROOT, root) == SPAN_OK);
    CHECK(event_in(SPAN_CURRENT, 99) == SPAN_OK);
    /* the span is at its greatest count, and stays there */
    CHECK(span_registry_find(&registry, root, &found) == SPAN_OK && found.count == 2);
    CHECK(event_in(SPAN_UNDER, 0) == SPAN_UNKNOWN);
    CHECK(event_in(SPAN_UNDER, 2) == SPAN_UNKNOWN);
    CHECK(event_in(SPAN_UNDER, 72057594037927937u) == SPAN_UNKNOWN);
    CHECK(event_in(SPAN_UNDER, 18446744073709551615u) == SPAN_UNKNOWN);
    CHECK(event_in(3, root) == SPAN_BAD_DATA);
    CHECK(span_registry_exit(&registry, 0, root, &answer) == SPAN_OK);
    CHECK(span_registry_enter(&registry, 1, root, &answer) == SPAN_OK);
    CHECK(event_in(SPAN_CURRENT, 0) == SPAN_OK);
    CHECK(event_in(SPAN_ROOT, 0) == SPAN_OK);
    CHECK(span_registry_exit(&registry, 1, root, &answer) == SPAN_OK);
    CHECK(span_registry_try_close(&registry, 0, root, &answer) == SPAN_OK && answer == 1);
    CHECK(event_in(SPAN_UNDER, root) == SPAN_UNKNOWN);
    CHECK_LINE(0, "new 1 w0 a k=v");
    CHECK_LINE(1, "{\"fields\":[[\"k\",\"v\"]],\"id\":1,\"kind\":\"new\",\"path\":\"a\",\"worker\":0}");
    CHECK_LINE(0, "enter 1 w0 a");
    CHECK_LINE(0, "event 1 w1 a WARN m");
    CHECK_LINE(0, "event 0 w1 - WARN m");
    CHECK_LINE(0, "event 0 w1 - WARN m");
    CHECK_LINE(0, "exit 1 w0 a");
    CHECK_LINE(0, "enter 1 w1 a");
    CHECK_LINE(0, "event 1 w1 a WARN m");
    CHECK_LINE(0, "event 0 w1 - WARN m");
    CHECK_LINE(0, "exit 1 w1 a");
    CHECK_LINE(0, "close 1 w0 a k=v");
    CHECK_LINE(1, "{\"fields\":[[\"k\",\"v\"]],\"id\":1,\"kind\":\"close\",\"path\":\"a\",\"worker\":0}");
    check_no_line(__LINE__);
    close_both();
    CHECK(event_in(SPAN_ROOT, 0) == SPAN_EMPTY_HANDLE);
}

static void test_short_buffer(void) {
    uint8_t into[14] = {7, 7};
    uint64_t id;
    uint32_t layer = 99;
    size_t len = 0;
    CHECK(open_usual(usual_limits) == SPAN_OK);
    CHECK(make_span(0, SPAN_ROOT, 0, &id) == SPAN_OK);
    CHECK(span_drain_line(&drain, &layer, into, 13, &len) == SPAN_SHORT_BUFFER && len == 14);
    CHECK(layer == 99 && into[0] == 7 && into[1] == 7);
    CHECK(span_drain_line(&drain, &layer, into, 0, &len) == SPAN_SHORT_BUFFER && len == 14);
    CHECK(span_drain_line(&drain, &layer, into, 14, &len) == SPAN_OK && len == 14 && layer == 0);
    CHECK(memcmp(into, "new 1 w0 a k=v", 14) == 0);
    CHECK(span_drain_line(&drain, &layer, into, 14, &len) == SPAN_SHORT_BUFFER && len > 14);
    close_both();
}

static void test_unwanted_span(void) {
    const SpanMeta meta = {4, 1, 3};
    uint64_t id = 99;
    SpanCounts counts;
    CHECK(open_usual(usual_limits) == SPAN_OK);
    CHECK(span_registry_new_span(&registry, 0, SPAN_ROOT, 0, &meta, no_fields, 0, bytes("aapp"), 4, &id) == SPAN_OK);
    CHECK(id == 0);
    id = 99;
    CHECK(span_registry_new_span(&registry, 0, SPAN_UNDER, 0, &meta, no_fields, 0, bytes("aapp"), 4, &id) == SPAN_OK);
    CHECK(id == 0);
    CHECK(span_registry_counts(&registry, &counts) == SPAN_OK && counts.calls == 0);
    close_both();
}

static void test_refusals(void) {
    const SpanMeta empty_name = {2, 0, 1};
    const SpanField bad_key = {1, 0};
    const SpanLimits small = {1, 0, 2, 1, 8};
    uint64_t id = 0, other = 99;
    uint32_t answer = 99;
    CHECK(open_usual(small) == SPAN_OK);
    CHECK(span_registry_new_span(&registry, 0, SPAN_ROOT, 0, &empty_name, no_fields, 0, bytes("t"), 1, &other)
        == SPAN_BAD_NAME);
    CHECK(make_span(0, SPAN_UNDER, 1, &other) == SPAN_UNKNOWN);
    CHECK(make_span(0, SPAN_ROOT, 0, &id) == SPAN_OK);
    CHECK(make_span(0, SPAN_UNDER, 0, &other) == SPAN_UNKNOWN);
    CHECK(make_span(0, SPAN_UNDER, 72057594037927937u, &other) == SPAN_UNKNOWN);
    CHECK(span_registry_new_span(&registry, 0, SPAN_UNDER, 0, &empty_name, no_fields, 0, bytes("t"), 1, &other)
        == SPAN_BAD_NAME);
    CHECK(make_span(0, SPAN_ROOT, 0, &other) == SPAN_FULL);
    CHECK(span_registry_record(&registry, 0, id, &bad_key, 1, bytes(" "), 1) == SPAN_BAD_NAME);
    CHECK(span_registry_record(&registry, 0, 0, &bad_key, 1, bytes(" "), 1) == SPAN_BAD_NAME);
    CHECK(span_registry_record(&registry, 0, 0, no_fields, 0, bytes(""), 0) == SPAN_UNKNOWN);
    CHECK(span_registry_clone_span(&registry, 0, id) == SPAN_OK);
    CHECK(span_registry_clone_span(&registry, 0, id) == SPAN_COUNT_FULL);
    CHECK(span_registry_enter(&registry, 0, id, &answer) == SPAN_COUNT_FULL);
    CHECK(span_registry_exit(&registry, 0, id, &answer) == SPAN_NOT_ENTERED);
    CHECK(span_registry_exit(&registry, 0, id + 1, &answer) == SPAN_UNKNOWN);
    CHECK(span_registry_try_close(&registry, 0, 0, &answer) == SPAN_UNKNOWN);
    CHECK(span_registry_clone_span(&registry, 0, 18446744073709551615u) == SPAN_UNKNOWN);
    CHECK(other == 99 && answer == 99);
    close_both();
}

static void test_backlog(void) {
    const SpanLimits one_place = {16, 9, 9, 1, 1};
    uint64_t id = 0, other = 99;
    CHECK(open_usual(one_place) == SPAN_OK);
    CHECK(make_span(0, SPAN_ROOT, 0, &id) == SPAN_OK);
    CHECK(make_span(0, SPAN_ROOT, 0, &other) == SPAN_BACKLOG && other == 99);
    CHECK_LINE(0, "new 1 w0 a k=v");
    CHECK(make_span(0, SPAN_ROOT, 0, &other) == SPAN_OK && other == 2);
    CHECK(span_drain_free(&drain) == SPAN_OK);
    CHECK(make_span(0, SPAN_ROOT, 0, &other) == SPAN_BACKLOG && other == 2);
    CHECK(span_registry_free(&registry) == SPAN_OK);
}

/* data that say nothing, for calls of which some memory is refused after so many allocations */
static void check_bad_data_of_spans(long allowed) {
    const SpanMeta good = {2, 1, 1}, no_level = {5, 1, 1}, too_long = {2, 1, 4294967295u};
    const SpanField field = {1, 1}, long_value = {1, 2};
    uint64_t id = 99;
    allocations_left = allowed;
#define NEW(kind, parent, meta, field, text, len) \
    span_registry_new_span(&registry, 0, kind, parent, meta, field, 1, bytes(text), len, &id)
    CHECK(NEW(SPAN_ROOT, 0, &no_level, &field, "atkv", 4) == SPAN_BAD_DATA);
    CHECK(NEW(SPAN_ROOT, 0, &too_long, &field, "atkv", 4) == SPAN_BAD_DATA);
    CHECK(NEW(SPAN_ROOT, 0, &good, &long_value, "atkv", 4) == SPAN_BAD_DATA);
    CHECK(NEW(SPAN_ROOT, 0, &good, &field, "atkvx", 5) == SPAN_BAD_DATA);
    CHECK(NEW(SPAN_ROOT, 0, &good, &field, "atk\xff", 4) == SPAN_BAD_DATA);
    CHECK(NEW(3, 1, &good, &field, "atkv", 4) == SPAN_BAD_DATA);
    CHECK(NEW(4294967295u, 0, &good, &field, "atkv", 4) == SPAN_BAD_DATA);
#undef NEW
    CHECK(span_registry_event(&registry, 0, &good, 3, no_fields, 0, bytes("etm"), 3) == SPAN_BAD_DATA);
    CHECK(span_registry_event(&registry, 0, &no_level, 1, no_fields, 0, bytes("etm"), 3) == SPAN_BAD_DATA);
    CHECK(span_registry_event(&registry, 0, &good, 0, no_fields, 0, bytes("etm"), 3) == SPAN_BAD_DATA);
    CHECK(span_registry_event_in(&registry, 0, 3, 1, &good, 1, no_fields, 0, bytes("etm"), 3) == SPAN_BAD_DATA);
    CHECK(span_registry_event_in(&registry, 0, SPAN_UNDER, 9, &good, 0, no_fields, 0, bytes("etm"), 3)
        == SPAN_BAD_DATA);
    CHECK(span_registry_record(&registry, 0, 1, &field, 1, bytes("k"), 1) == SPAN_BAD_DATA);
    CHECK(span_registry_record(&registry, 0, 1, no_fields, 0, bytes("k"), 1) == SPAN_BAD_DATA);
    CHECK(id == 99);
    allocations_left = -1;
}

static void test_bad_data_of_spans(void) {
    const SpanMeta meta = {2, 1, 1};
    const SpanField field = {1, 1};
    uint64_t id = 99;
    CHECK(open_usual(usual_limits) == SPAN_OK);
    CHECK(span_registry_new_span(&registry, 0, SPAN_ROOT, 0, &meta, &field, 1, bytes("atkv"), 4, &id) == SPAN_OK);
    CHECK(id == 1);
    for (long allowed = -1; allowed < 4; allowed++)
        check_bad_data_of_spans(allowed);
    CHECK_LINE(0, "new 1 w0 a k=v");
    check_no_line(__LINE__);
    close_both();
}

static uint32_t open_with(SpanLayer layer, SpanRule rule, const char *texts, size_t len) {
    return span_registry_new(&registry, &drain, &usual_limits, &layer, 1, &rule, 1, bytes(texts), len);
}

static void check_bad_data_of_registries(long allowed) {
    const SpanLayer layer = {0, SPAN_KINDS_ALL, 1};
    const SpanRule rule = {1, 4};
    allocations_left = allowed;
    CHECK(open_with((SpanLayer){2, SPAN_KINDS_ALL, 1}, rule, "a", 1) == SPAN_BAD_DATA);
    CHECK(open_with((SpanLayer){0, 16, 1}, rule, "a", 1) == SPAN_BAD_DATA);
    CHECK(open_with((SpanLayer){0, SPAN_KINDS_ALL, 0}, rule, "a", 1) == SPAN_BAD_DATA);
    CHECK(open_with((SpanLayer){0, SPAN_KINDS_ALL, 2}, rule, "a", 1) == SPAN_BAD_DATA);
    CHECK(open_with(layer, (SpanRule){1, 5}, "a", 1) == SPAN_BAD_DATA);
    CHECK(open_with(layer, (SpanRule){2, 4}, "a", 1) == SPAN_BAD_DATA);
    CHECK(open_with(layer, rule, "ab", 2) == SPAN_BAD_DATA);
    CHECK(open_with(layer, rule, "\xff", 1) == SPAN_BAD_DATA);
    CHECK(registry.at == NULL && drain.at == NULL);
    allocations_left = -1;
}

static void test_bad_data_of_registries(void) {
    const SpanRule rule = {1, 4};
    SpanLimits limits = usual_limits;
    SpanLayer many[65];
    memset(many, 0, sizeof many);
    for (long allowed = -1; allowed < 4; allowed++)
        check_bad_data_of_registries(allowed);
    CHECK(span_registry_new(&registry, &drain, &limits, many, 65, &rule, 0, bytes(""), 0) == SPAN_TOO_MANY_LAYERS);
    limits.workers = 65537;
    CHECK(span_registry_new(&registry, &drain, &limits, many, 65, &rule, 0, bytes(""), 0) == SPAN_BAD_LIMITS);
    CHECK(registry.at == NULL && drain.at == NULL);
    CHECK(span_registry_new(&registry, &drain, &usual_limits, many, 64, &rule, 0, bytes(""), 0) == SPAN_OK);
    close_both();
}

static void test_handles(void) {
    const SpanMeta meta = {2, 1, 1};
    SpanDrain other = {NULL};
    SpanRegistry second = {NULL};
    SpanFound found = {1, 2, 3, 4, 5};
    SpanCounts counts;
    uint64_t id = 99, more = 98;
    uint32_t answer = 97;
    size_t len = 96;
    uint8_t into[1] = {95};
    CHECK(span_registry_free(&registry) == SPAN_EMPTY_HANDLE);
    CHECK(span_drain_free(&drain) == SPAN_EMPTY_HANDLE);
    CHECK(make_span(0, SPAN_ROOT, 0, &id) == SPAN_EMPTY_HANDLE);
    CHECK(span_registry_clone_span(&registry, 0, 1) == SPAN_EMPTY_HANDLE);
    CHECK(span_registry_enter(&registry, 0, 1, &answer) == SPAN_EMPTY_HANDLE);
    CHECK(span_registry_exit(&registry, 0, 1, &answer) == SPAN_EMPTY_HANDLE);
    CHECK(span_registry_try_close(&registry, 0, 1, &answer) == SPAN_EMPTY_HANDLE);
    CHECK(span_registry_record(&registry, 0, 1, no_fields, 0, into, 0) == SPAN_EMPTY_HANDLE);
    CHECK(span_registry_event(&registry, 0, &meta, 0, no_fields, 0, bytes("ab"), 2) == SPAN_EMPTY_HANDLE);
    CHECK(span_registry_find(&registry, 1, &found) == SPAN_EMPTY_HANDLE && found.parent == 1 && found.level == 5);
    CHECK(span_registry_current_span(&registry, 0, &id) == SPAN_EMPTY_HANDLE);
    CHECK(span_registry_counts(&registry, &counts) == SPAN_EMPTY_HANDLE);
    CHECK(span_drain_line(&drain, &answer, into, 1, &len) == SPAN_EMPTY_HANDLE);
    CHECK(span_drain_counts(&drain, &id, &more) == SPAN_EMPTY_HANDLE);
    CHECK(id == 99 && more == 98 && answer == 97 && len == 96 && into[0] == 95);
    CHECK(open_usual(usual_limits) == SPAN_OK);
    CHECK(open_usual(usual_limits) == SPAN_HANDLE_IN_USE);
    CHECK(span_registry_new(&registry, &other, &usual_limits, (const SpanLayer *)into, 0, (const SpanRule *)into,
        0, into, 0) == SPAN_HANDLE_IN_USE);
    CHECK(span_registry_new(&second, &drain, &usual_limits, (const SpanLayer *)into, 0, (const SpanRule *)into, 0, into,
        0) == SPAN_HANDLE_IN_USE);
    CHECK(other.at == NULL && second.at == NULL);
    close_both();
}

static void test_workers(void) {
    const SpanMeta meta = {2, 1, 1};
    uint64_t id = 99;
    uint32_t answer = 97;
    CHECK(open_usual(usual_limits) == SPAN_OK);
    CHECK(make_span(2, SPAN_ROOT, 0, &id) == SPAN_NO_SUCH_WORKER);
    CHECK(span_registry_clone_span(&registry, 2, 1) == SPAN_NO_SUCH_WORKER);
    CHECK(span_registry_enter(&registry, 2, 1, &answer) == SPAN_NO_SUCH_WORKER);
    CHECK(span_registry_exit(&registry, 4294967295u, 1, &answer) == SPAN_NO_SUCH_WORKER);
    CHECK(span_registry_try_close(&registry, 2, 1, &answer) == SPAN_NO_SUCH_WORKER);
    CHECK(span_registry_record(&registry, 2, 1, no_fields, 0, bytes("x"), 1) == SPAN_NO_SUCH_WORKER);
    CHECK(span_registry_event(&registry, 2, &meta, 0, no_fields, 0, bytes("ab"), 2) == SPAN_NO_SUCH_WORKER);
    CHECK(span_registry_event_in(&registry, 2, 3, 0, &meta, 9, no_fields, 0, bytes("ab"), 2) == SPAN_NO_SUCH_WORKER);
    CHECK(span_registry_current_span(&registry, 2, &id) == SPAN_NO_SUCH_WORKER);
    CHECK(id == 99 && answer == 97);
    close_both();
}

static void test_status_texts(void) {
    uint8_t into[32];
    size_t len = 99;
    CHECK(span_status_text(SPAN_COUNT_FULL, into, sizeof into, &len) == SPAN_OK && len == 10);
    CHECK(memcmp(into, "count full", 10) == 0);
    CHECK(span_status_text(SPAN_SHORT_BUFFER, into, 3, &len) == SPAN_SHORT_BUFFER && len == 12);
    CHECK(span_status_text(9, into, sizeof into, &len) == SPAN_BAD_DATA && len == 12);
    CHECK(span_status_text(18, into, sizeof into, &len) == SPAN_BAD_DATA);
    for (uint32_t status = 0; status <= 17; status++)
        CHECK(status == 9 || (span_status_text(status, into, sizeof into, &len) == SPAN_OK && len > 0));
}

/* a short life of everything; the first status that isn't SPAN_OK */
static uint32_t short_life(void) {
    const SpanMeta meta = {2, 1, 7};
    const SpanField field = {1, 1};
    uint64_t id = 0;
    uint32_t answer, status = open_usual(usual_limits);
    if (status == SPAN_OK)
        status = make_span(0, SPAN_ROOT, 0, &id);
    if (status == SPAN_OK)
        status = span_registry_enter(&registry, 0, id, &answer);
    if (status == SPAN_OK)
        status = span_registry_record(&registry, 0, id, &field, 1, bytes("kv"), 2);
    if (status == SPAN_OK)
        status = span_registry_event(&registry, 0, &meta, 1, &field, 1, bytes("eapp::dbmkv"), 11);
    if (status == SPAN_OK)
        status = span_registry_exit(&registry, 0, id, &answer);
    return status == SPAN_OK ? span_registry_try_close(&registry, 0, id, &answer) : status;
}

static void test_refused_memory(void) {
    uint8_t into[512];
    uint32_t layer, status;
    uint64_t batches, missed = 0;
    size_t len;
    long allowed = 0;
    do {
        allocations_left = allowed++;
        status = short_life();
        CHECK(status == SPAN_OK || status == SPAN_OUT_OF_MEMORY);
        CHECK((registry.at == NULL) == (drain.at == NULL));
        allocations_left = allowed % 3;
        while (span_drain_line(&drain, &layer, into, sizeof into, &len) == SPAN_OK)
            ;
        allocations_left = -1;
        if (drain.at != NULL)
            CHECK(span_drain_counts(&drain, &batches, &missed) == SPAN_OK);
        span_registry_free(&registry);
        span_drain_free(&drain);
    } while (status != SPAN_OK && allowed < 10000);
    CHECK(status == SPAN_OK && allowed > 20);
    CHECK(missed > 0);
}

/* ---- a thread that reads beside one that calls */

enum { ROUNDS = 3000 };

static atomic_int no_more_calls;

/* reads lines until no more come, and counts those that tell the enter of the next span */
static void *read_enters(void *count) {
    char wanted[64];
    uint8_t into[128];
    uint32_t layer, status;
    unsigned long enters = 0;
    size_t len;
    for (;;) {
        int last = atomic_load(&no_more_calls);
        while ((status = span_drain_line(&drain, &layer, into, sizeof into, &len)) == SPAN_OK) {
            int length = snprintf(wanted, sizeof wanted, "enter %lu w0 a", enters * 16777216 + 1);
            enters += len == (size_t)length && memcmp(into, wanted, len) == 0;
        }
        if (status != SPAN_NO_LINE || last)
            break;
        sched_yield();
    }
    *(unsigned long *)count = enters;
    return NULL;
}

static uint32_t until_there_is_room(uint32_t (*call)(uint64_t *id), uint64_t *id) {
    uint32_t status;
    while ((status = call(id)) == SPAN_BACKLOG)
        sched_yield();
    return status;
}

static uint32_t make_one(uint64_t *id) {
    return make_span(0, SPAN_ROOT, 0, id);
}

static uint32_t enter_one(uint64_t *id) {
    uint32_t first;
    return span_registry_enter(&registry, 0, *id, &first);
}

static uint32_t exit_one(uint64_t *id) {
    uint32_t closed;
    return span_registry_exit(&registry, 0, *id, &closed);
}

static uint32_t close_one(uint64_t *id) {
    uint32_t closed;
    return span_registry_try_close(&registry, 0, *id, &closed);
}

static void test_reader_in_another_thread(void) {
    uint32_t (*const calls[])(uint64_t *) = {make_one, enter_one, exit_one, close_one};
    const SpanLimits limits = {1, 4294967295u, 9, 1, 8};
    unsigned long enters = 0;
    uint64_t id = 0;
    int good = 1;
    pthread_t reader;
    CHECK(open_usual(limits) == SPAN_OK);
    CHECK(pthread_create(&reader, NULL, read_enters, &enters) == 0);
    for (int round = 0; round < ROUNDS; round++)
        for (int call = 0; call < 4; call++)
            good &= until_there_is_room(calls[call], &id) == SPAN_OK;
    CHECK(good);
    atomic_store(&no_more_calls, 1);
    CHECK(pthread_join(reader, NULL) == 0);
    CHECK(enters == ROUNDS);
    close_both();
}

static void test_abi(void) {
    SpanSizes sizes;
    CHECK(span_abi_version() == SPAN_ABI_VERSION);
    CHECK(span_struct_sizes(&sizes) == SPAN_OK);
    CHECK(sizes.limits == sizeof(SpanLimits) && sizes.layer == sizeof(SpanLayer) && sizes.rule == sizeof(SpanRule));
    CHECK(sizes.meta == sizeof(SpanMeta) && sizes.field == sizeof(SpanField));
    CHECK(sizes.found == sizeof(SpanFound) && sizes.held == sizeof(SpanHeld) && sizes.counts == sizeof(SpanCounts));
}

int main(void) {
    test_abi();
    test_life_of_a_span();
    test_lines();
    test_events_in();
    test_short_buffer();
    test_unwanted_span();
    test_refusals();
    test_backlog();
    test_bad_data_of_spans();
    test_bad_data_of_registries();
    test_handles();
    test_workers();
    test_status_texts();
    test_refused_memory();
    test_reader_in_another_thread();
    printf("%d passed, %d failed\n", passed, failed);
    return failed == 0 ? EXIT_SUCCESS : EXIT_FAILURE;
}
