/* Callsites: a span or an event at one is what the same call by its meta is, which one a span has, and what is refused.
 * The last line that it prints is 'N passed, M failed'. It is linked with --wrap=malloc and --wrap=realloc, so that
 * memory can be refused. */
#include "checks.h"
#include "span_registry.h"

#include <stdio.h>
#include <stdlib.h>
#include <string.h>

/* ---- short forms */

/* one that is called at callsites, and one that is called by meta */
static SpanRegistry registry, by_meta;
static SpanDrain drain, drain_by_meta;
static const SpanField no_fields[1];
static const SpanField field = {1, 1}, bad_key = {1, 0};
static const SpanLimits usual_limits = {16, 4294967295u, 4294967295u, 2, 256};

static const uint8_t *bytes(const char *text) {
    return (const uint8_t *)text;
}

/* a compact layer that wants all kinds, for all targets up to INFO, and a JSON layer for targets below app::db */
static uint32_t open_one(SpanRegistry *at, SpanDrain *end, SpanLimits limits) {
    const SpanLayer layers[] = {{0, SPAN_KINDS_ALL, 1}, {1, SPAN_KINDS_ALL, 1}};
    const SpanRule rules[] = {{0, 2}, {7, 4}};
    return span_registry_new(at, end, &limits, layers, 2, rules, 2, bytes("app::db"), 7);
}

static void close_both(void) {
    CHECK(span_registry_free(&registry) == SPAN_OK);
    CHECK(span_drain_free(&drain) == SPAN_OK);
}

/* the metas of the callsites 0, 1 and 2: both layers want the first, the compact one the second, and none the third */
enum { PLACES = 3 };

static const struct {
    SpanMeta meta;
    const char *texts;
} places[PLACES] = {
    {{2, 5, 7}, "queryapp::db"},
    {{0, 4, 3}, "pingapp"},
    {{4, 64, 0}, "trace.................................................._and-AZ09"},
};

static uint32_t add(uint32_t place, uint32_t *number) {
    const SpanMeta *meta = &places[place].meta;
    return span_registry_add_callsite(&registry, meta, bytes(places[place].texts), meta->name_len + meta->target_len,
        number);
}

/* the texts of a place, and then others; how many bytes they have */
static size_t with_place(uint32_t place, const char *texts, size_t len, uint8_t *into) {
    size_t front = strlen(places[place].texts);
    memcpy(into, places[place].texts, front);
    memcpy(into + front, texts, len);
    return front + len;
}

static uint32_t span_at(uint32_t callsite, uint32_t kind, uint64_t parent, uint64_t *id) {
    return span_registry_new_span_at(&registry, 0, kind, parent, callsite, &field, 1, bytes("kv"), 2, id);
}

static uint32_t event_at(uint32_t callsite) {
    return span_registry_event_at(&registry, 0, callsite, 2, &field, 1, bytes("hikv"), 4);
}

static void add_places(void) {
    for (uint32_t place = 0; place < PLACES; place++) {
        uint32_t number = 99;
        CHECK(add(place, &number) == SPAN_OK && number == place);
    }
}

static uint64_t calls_made(void) {
    SpanCounts counts = {0};
    CHECK(span_registry_counts(&registry, &counts) == SPAN_OK);
    return counts.calls;
}

static void check_no_line(void) {
    uint8_t into[1];
    uint32_t layer;
    size_t len;
    CHECK(span_drain_line(&drain, &layer, into, sizeof into, &len) == SPAN_NO_LINE);
}

/* ---- the tests */

static void test_numbers(void) {
    uint32_t number = 99;
    CHECK(open_one(&registry, &drain, usual_limits) == SPAN_OK);
    add_places();
    CHECK(add(1, &number) == SPAN_OK && number == PLACES);
    CHECK(add(1, &number) == SPAN_OK && number == PLACES + 1);
    CHECK(calls_made() == 0);
    check_no_line();
    close_both();
}

/* the texts are copied */
static void test_texts_are_kept(void) {
    const SpanMeta meta = {1, 4, 1};
    uint8_t texts[5] = "namet", into[64];
    uint32_t number = 99, layer = 99;
    uint64_t id = 0;
    size_t len = 0;
    CHECK(open_one(&registry, &drain, usual_limits) == SPAN_OK);
    CHECK(span_registry_add_callsite(&registry, &meta, texts, sizeof texts, &number) == SPAN_OK && number == 0);
    memset(texts, '!', sizeof texts);
    CHECK(span_registry_new_span_at(&registry, 1, SPAN_ROOT, 0, 0, no_fields, 0, bytes(""), 0, &id) == SPAN_OK);
    CHECK(id == 1);
    CHECK(span_drain_line(&drain, &layer, into, sizeof into, &len) == SPAN_OK && len == 13 && layer == 0);
    CHECK(memcmp(into, "new 1 w1 name", 13) == 0);
    close_both();
}

/* the next line of both drains is the same; whether there was one */
static int same_line(void) {
    uint8_t into[2][512];
    uint32_t layer[2] = {99, 99};
    size_t len[2] = {0, 0};
    uint32_t status = span_drain_line(&drain, &layer[0], into[0], sizeof into[0], &len[0]);
    CHECK(span_drain_line(&drain_by_meta, &layer[1], into[1], sizeof into[1], &len[1]) == status);
    CHECK(status == SPAN_OK || status == SPAN_NO_LINE);
    if (status != SPAN_OK)
        return 0;
    CHECK(layer[0] == layer[1] && len[0] == len[1] && memcmp(into[0], into[1], len[0]) == 0);
    return 1;
}

/* a span and two events of a place in both registries, with the same answers */
static void check_same_calls(uint32_t place, uint32_t kind, uint64_t parent, const SpanField *fields, size_t fields_len,
    const char *texts) {
    const SpanMeta *meta = &places[place].meta;
    size_t texts_len = strlen(texts), len;
    uint64_t id = 98, other = 98;
    uint32_t answer = 9, status;
    uint8_t all[128], message[128] = "hi";
    len = with_place(place, texts, texts_len, all);
    status = span_registry_new_span(&by_meta, 1, kind, parent, meta, fields, fields_len, all, len, &other);
    CHECK(span_registry_new_span_at(&registry, 1, kind, parent, place, fields, fields_len, bytes(texts), texts_len, &id)
        == status);
    CHECK(id == other && (status != SPAN_OK || (id == 0) == (place == 2)));
    if (status == SPAN_OK && id != 0) {
        CHECK(span_registry_enter(&registry, 1, id, &answer) == SPAN_OK);
        CHECK(span_registry_enter(&by_meta, 1, id, &answer) == SPAN_OK);
    }
    memcpy(message + 2, texts, texts_len);
    len = with_place(place, (const char *)message, 2 + texts_len, all);
    status = span_registry_event(&by_meta, 1, meta, 2, fields, fields_len, all, len);
    CHECK(span_registry_event_at(&registry, 1, place, 2, fields, fields_len, message, 2 + texts_len) == status);
    status = span_registry_event_in(&by_meta, 1, kind, parent, meta, 2, fields, fields_len, all, len);
    CHECK(span_registry_event_in_at(&registry, 1, kind, parent, place, 2, fields, fields_len, message, 2 + texts_len)
        == status);
}

static void test_same_as_by_meta(void) {
    const SpanField two[] = {{1, 4}, {3, 0}};
    unsigned lines = 0;
    CHECK(open_one(&registry, &drain, usual_limits) == SPAN_OK);
    CHECK(open_one(&by_meta, &drain_by_meta, usual_limits) == SPAN_OK);
    add_places();
    for (uint32_t place = 0; place < PLACES; place++)
        for (uint32_t kind = SPAN_ROOT; kind <= SPAN_UNDER; kind++) {
            check_same_calls(place, kind, 1, no_fields, 0, "");
            check_same_calls(place, kind, 1, two, 2, "k a\nbkey");
            check_same_calls(place, kind, 77, &field, 1, "kv");
            check_same_calls(place, kind, 1, &bad_key, 1, " ");
            check_same_calls(place, kind, 1, &field, 1, "kvx");
        }
    while (same_line())
        lines++;
    CHECK(lines > 30);
    CHECK(span_registry_free(&by_meta) == SPAN_OK);
    CHECK(span_drain_free(&drain_by_meta) == SPAN_OK);
    close_both();
}

/* what no callsite may have; some memory may be refused */
static void check_bad_callsites(long allowed) {
    const SpanMeta good = {2, 1, 1}, no_level = {5, 1, 1}, too_long = {2, 1, 4294967295u}, short_one = {2, 1, 0};
    uint32_t number = 99;
    allocations_left = allowed;
#define ADD(meta, text, len) span_registry_add_callsite(&registry, meta, bytes(text), len, &number)
    CHECK(ADD(&no_level, "nt", 2) == SPAN_BAD_DATA);
    CHECK(ADD(&too_long, "nt", 2) == SPAN_BAD_DATA);
    CHECK(ADD(&short_one, "nt", 2) == SPAN_BAD_DATA);
    CHECK(ADD(&good, "n", 1) == SPAN_BAD_DATA);
    CHECK(ADD(&good, "ntx", 3) == SPAN_BAD_DATA);
    CHECK(ADD(&good, "n\xff", 2) == SPAN_BAD_DATA);
    CHECK(ADD(&no_level, " t", 2) == SPAN_BAD_DATA);
#undef ADD
    CHECK(number == 99);
    allocations_left = -1;
}

static void test_bad_callsites(void) {
    const SpanMeta empty = {2, 0, 1}, blank = {2, 1, 1}, long_name = {2, 65, 0}, good = {4, 64, 0};
    const char *sixty_five = "aaaaaaaaaaaaaaaaaaaaaaaaaaaaaaaaaaaaaaaaaaaaaaaaaaaaaaaaaaaaaaaaa";
    uint32_t number = 99;
    CHECK(open_one(&registry, &drain, usual_limits) == SPAN_OK);
    for (long allowed = -1; allowed < 5; allowed++)
        check_bad_callsites(allowed);
    CHECK(span_registry_add_callsite(&registry, &empty, bytes("t"), 1, &number) == SPAN_BAD_NAME);
    CHECK(span_registry_add_callsite(&registry, &blank, bytes(" t"), 2, &number) == SPAN_BAD_NAME);
    CHECK(span_registry_add_callsite(&registry, &long_name, bytes(sixty_five), 65, &number) == SPAN_BAD_NAME);
    CHECK(number == 99);
    CHECK(span_registry_add_callsite(&registry, &good, bytes(sixty_five), 64, &number) == SPAN_OK && number == 0);
    close_both();
}

static void check_wrong_number(uint32_t wrong) {
    uint64_t id = 99;
    CHECK(span_at(wrong, SPAN_ROOT, 0, &id) == SPAN_NO_SUCH_CALLSITE);
    CHECK(event_at(wrong) == SPAN_NO_SUCH_CALLSITE);
    CHECK(id == 99);
}

static void test_wrong_numbers(void) {
    const SpanLimits one_place = {16, 9, 9, 1, 1};
    uint64_t id = 99;
    CHECK(open_one(&registry, &drain, one_place) == SPAN_OK);
    check_wrong_number(0);
    add_places();
    check_wrong_number(PLACES);
    check_wrong_number(4294967295u);
    CHECK(calls_made() == 0);
    check_no_line();
    /* of several things that stand against a call the first one is told */
    CHECK(span_registry_new_span_at(&registry, 1, 3, 0, PLACES, &field, 1, bytes("k"), 1, &id) == SPAN_NO_SUCH_WORKER);
    CHECK(span_registry_new_span_at(&registry, 0, 3, 0, PLACES, &field, 1, bytes("k"), 1, &id)
        == SPAN_NO_SUCH_CALLSITE);
    CHECK(span_registry_new_span_at(&registry, 0, 3, 0, 0, &bad_key, 1, bytes(" "), 1, &id) == SPAN_BAD_DATA);
    CHECK(span_registry_new_span_at(&registry, 0, SPAN_UNDER, 7, 0, &bad_key, 1, bytes(" "), 1, &id) == SPAN_BAD_NAME);
    CHECK(span_registry_event_at(&registry, 1, PLACES, 9, no_fields, 0, bytes(""), 0) == SPAN_NO_SUCH_WORKER);
    CHECK(span_registry_event_at(&registry, 0, PLACES, 9, no_fields, 0, bytes(""), 0) == SPAN_NO_SUCH_CALLSITE);
    CHECK(span_registry_event_at(&registry, 0, 0, 9, &bad_key, 1, bytes(" "), 1) == SPAN_BAD_DATA);
    CHECK(span_registry_event_at(&registry, 0, 0, 0, &bad_key, 1, bytes(" "), 1) == SPAN_BAD_NAME);
    CHECK(span_registry_event_in_at(&registry, 0, 3, 0, PLACES, 9, no_fields, 0, bytes(""), 0)
        == SPAN_NO_SUCH_CALLSITE);
    CHECK(span_registry_event_in_at(&registry, 0, 3, 0, 0, 0, &bad_key, 1, bytes(" "), 1) == SPAN_BAD_DATA);
    CHECK(span_registry_event_in_at(&registry, 0, SPAN_UNDER, 7, 0, 0, &bad_key, 1, bytes(" "), 1) == SPAN_BAD_NAME);
    CHECK(span_registry_event_in_at(&registry, 0, SPAN_UNDER, 7, 0, 0, no_fields, 0, bytes(""), 0) == SPAN_UNKNOWN);
    CHECK(id == 99);
    /* the ring's only place */
    CHECK(event_at(0) == SPAN_OK);
    CHECK(span_at(0, SPAN_ROOT, 0, &id) == SPAN_BACKLOG && id == 99);
    CHECK(event_at(0) == SPAN_BACKLOG);
    check_wrong_number(PLACES);
    close_both();
}

static void test_refusals(void) {
    const SpanLimits small = {1, 0, 2, 1, 8};
    uint64_t id = 0, other = 99;
    CHECK(open_one(&registry, &drain, small) == SPAN_OK);
    add_places();
    CHECK(span_at(0, SPAN_UNDER, 1, &other) == SPAN_UNKNOWN);
    CHECK(span_at(0, SPAN_ROOT, 0, &id) == SPAN_OK && id == 1);
    CHECK(span_at(0, SPAN_UNDER, 0, &other) == SPAN_UNKNOWN);
    CHECK(span_at(0, SPAN_UNDER, 72057594037927937u, &other) == SPAN_UNKNOWN);
    CHECK(span_at(0, SPAN_ROOT, 0, &other) == SPAN_FULL);
    CHECK(span_registry_clone_span(&registry, 0, id) == SPAN_OK);
    CHECK(span_at(0, SPAN_UNDER, id, &other) == SPAN_COUNT_FULL);
    CHECK(other == 99);
    CHECK(span_at(2, SPAN_UNDER, 7, &other) == SPAN_OK && other == 0);
    close_both();
}

static void test_empty_handle(void) {
    uint64_t id = 99;
    uint32_t number = 98;
    CHECK(add(0, &number) == SPAN_EMPTY_HANDLE && number == 98);
    CHECK(span_at(0, SPAN_ROOT, 0, &id) == SPAN_EMPTY_HANDLE && id == 99);
    CHECK(event_at(0) == SPAN_EMPTY_HANDLE);
    /* a new registry has none of the callsites of one before */
    CHECK(open_one(&registry, &drain, usual_limits) == SPAN_OK);
    add_places();
    close_both();
    CHECK(open_one(&registry, &drain, usual_limits) == SPAN_OK);
    CHECK(span_at(0, SPAN_ROOT, 0, &id) == SPAN_NO_SUCH_CALLSITE && id == 99);
    CHECK(add(1, &number) == SPAN_OK && number == 0);
    CHECK(span_at(0, SPAN_ROOT, 0, &id) == SPAN_OK && id == 1);
    close_both();
}

/* makes a call with one allocation more each time, until it is done; how often it was refused for want of memory */
static long refusals_of(uint32_t (*call)(uint64_t *told)) {
    uint64_t told = 99;
    uint32_t status;
    long allowed = 0;
    do {
        CHECK(told == 99);
        allocations_left = allowed++;
        status = call(&told);
        allocations_left = -1;
        CHECK(status == SPAN_OK || status == SPAN_OUT_OF_MEMORY);
    } while (status != SPAN_OK && allowed < 1000);
    CHECK(status == SPAN_OK);
    return allowed - 1;
}

static uint32_t add_first(uint64_t *told) {
    uint32_t number = 99, status = add(0, &number);
    *told = number;
    return status;
}

static uint32_t span_at_first(uint64_t *told) {
    return span_at(0, SPAN_CURRENT, 0, told);
}

static uint32_t event_at_first(uint64_t *told) {
    (void)told;
    return event_at(0);
}

static void test_refused_memory(void) {
    uint32_t number = 99;
    uint64_t id = 99;
    CHECK(open_one(&registry, &drain, usual_limits) == SPAN_OK);
    CHECK(refusals_of(add_first) > 3);
    /* none of the refused ones has a number */
    CHECK(add(1, &number) == SPAN_OK && number == 1);
    CHECK(refusals_of(span_at_first) > 3);
    CHECK(refusals_of(event_at_first) > 3);
    CHECK(calls_made() == 2);
    /* a wrong number and bad data are told also where memory is short */
    allocations_left = 0;
    check_wrong_number(2);
    CHECK(span_registry_new_span_at(&registry, 0, SPAN_ROOT, 0, 0, &field, 1, bytes("k"), 1, &id) == SPAN_BAD_DATA);
    CHECK(span_registry_event_at(&registry, 0, 0, 3, &field, 1, bytes("hikv"), 4) == SPAN_BAD_DATA);
    allocations_left = -1;
    CHECK(id == 99);
    close_both();
}

/* more callsites than the first room that is made for them */
static void test_many(void) {
    const SpanMeta meta = {2, 4, 0};
    char name[8];
    uint8_t into[64];
    uint32_t layer, number;
    uint64_t id;
    size_t len;
    int good = 1;
    CHECK(open_one(&registry, &drain, usual_limits) == SPAN_OK);
    for (uint32_t at = 0; at < 1000; at++) {
        snprintf(name, sizeof name, "n%03u", at);
        good &= span_registry_add_callsite(&registry, &meta, bytes(name), 4, &number) == SPAN_OK && number == at;
    }
    for (uint32_t at = 0; at < 1000; at++) {
        int wanted = snprintf((char *)into + 32, 32, "event 0 w0 - INFO m%03u", at);
        snprintf(name, sizeof name, "m%03u", at);
        good &= span_registry_event_at(&registry, 0, at, 4, no_fields, 0, bytes(name), 4) == SPAN_OK;
        good &= span_drain_line(&drain, &layer, into, 32, &len) == SPAN_OK && len == (size_t)wanted;
        good &= memcmp(into, into + 32, (size_t)wanted) == 0;
    }
    for (uint32_t at = 0; at < 1000; at += 333) {
        uint32_t closed;
        int length = snprintf((char *)into + 32, 32, " w0 n%03u", at);
        good &= span_registry_new_span_at(&registry, 0, SPAN_ROOT, 0, at, no_fields, 0, bytes(""), 0, &id) == SPAN_OK;
        good &= span_drain_line(&drain, &layer, into, 32, &len) == SPAN_OK;
        good &= memcmp(into + len - length, into + 32, (size_t)length) == 0;
        good &= span_registry_try_close(&registry, 0, id, &closed) == SPAN_OK;
        good &= span_drain_line(&drain, &layer, into, 32, &len) == SPAN_OK;
    }
    CHECK(good);
    close_both();
}

static void test_wants(void) {
    const SpanLimits limits = {16, 4294967295u, 4294967295u, 1, 64};
    const SpanLayer layers[] = {{0, SPAN_KINDS_ALL, 1}, {1, SPAN_KIND_NEW | SPAN_KIND_CLOSE, 1}};
    const SpanRule rules[] = {{0, 2}, {7, 4}};
    const SpanMeta trace = {4, 1, 8}, debug = {3, 1, 3};
    uint32_t wanted = 9, deep = 9, other = 9;
    CHECK(span_registry_wants(&registry, 2, (const uint8_t *)"app", 3, &wanted) == SPAN_EMPTY_HANDLE && wanted == 9);
    CHECK(span_registry_new(&registry, &drain, &limits, layers, 2, rules, 2, (const uint8_t *)"app::db", 7) == SPAN_OK);
    CHECK(span_registry_wants(&registry, 2, (const uint8_t *)"app", 3, &wanted) == SPAN_OK && wanted == 1);
    CHECK(span_registry_wants(&registry, 3, (const uint8_t *)"app", 3, &wanted) == SPAN_OK && wanted == 0);
    CHECK(span_registry_wants(&registry, 4, (const uint8_t *)"app::db2", 8, &wanted) == SPAN_OK && wanted == 1);
    CHECK(span_registry_wants(&registry, 4, (const uint8_t *)"", 0, &wanted) == SPAN_OK && wanted == 0);
    wanted = 9;
    CHECK(span_registry_wants(&registry, 5, (const uint8_t *)"app", 3, &wanted) == SPAN_BAD_DATA && wanted == 9);
    CHECK(span_registry_wants(&registry, 2, (const uint8_t *)"\xff", 1, &wanted) == SPAN_BAD_DATA && wanted == 9);
    allocations_left = 0;
    CHECK(span_registry_wants(&registry, 2, (const uint8_t *)"app", 3, &wanted) == SPAN_OUT_OF_MEMORY && wanted == 9);
    allocations_left = -1;
    CHECK(span_registry_add_callsite(&registry, &trace, (const uint8_t *)"aapp::db2", 9, &deep) == SPAN_OK);
    CHECK(span_registry_add_callsite(&registry, &debug, (const uint8_t *)"aapp", 4, &other) == SPAN_OK);
    allocations_left = 0;
    CHECK(span_registry_callsite_wants(&registry, deep, &wanted) == SPAN_OK && wanted == 1);
    CHECK(span_registry_callsite_wants(&registry, other, &wanted) == SPAN_OK && wanted == 0);
    CHECK(span_registry_callsite_wants(&registry, other + 1, &wanted) == SPAN_NO_SUCH_CALLSITE && wanted == 0);
    allocations_left = -1;
    CHECK(span_registry_free(&registry) == SPAN_OK && span_drain_free(&drain) == SPAN_OK);
    CHECK(span_registry_callsite_wants(&registry, 0, &wanted) == SPAN_EMPTY_HANDLE && wanted == 0);
}

/* the callsite that is told of a span, which takes no memory; 99 for none */
static uint32_t callsite_of(uint64_t id, uint32_t wanted) {
    uint32_t callsite = 99;
    allocations_left = 0;
    CHECK(span_registry_callsite_of(&registry, id, &callsite) == wanted);
    allocations_left = -1;
    return callsite;
}

/* a span by its texts, of 12 bytes */
static uint64_t span_by_texts(SpanMeta meta, const char *texts) {
    uint64_t id = 0;
    CHECK(span_registry_new_span(&registry, 0, SPAN_ROOT, 0, &meta, no_fields, 0, bytes(texts), 12, &id) == SPAN_OK);
    return id;
}

static void test_callsite_of(void) {
    uint64_t id, other = 0, next = 0;
    uint32_t number = 0, closed = 0;
    CHECK(callsite_of(1, SPAN_EMPTY_HANDLE) == 99);
    CHECK(open_one(&registry, &drain, usual_limits) == SPAN_OK);
    id = span_by_texts(places[0].meta, places[0].texts);
    CHECK(callsite_of(id, SPAN_NO_SUCH_CALLSITE) == 99);
    add_places();
    /* what a callsite has that is added later */
    CHECK(callsite_of(id, SPAN_OK) == 0);
    /* of equal ones the first */
    CHECK(add(1, &number) == SPAN_OK && number == PLACES);
    CHECK(span_at(PLACES, SPAN_UNDER, id, &other) == SPAN_OK && callsite_of(other, SPAN_OK) == 1);
    /* another level, name or target, or the same bytes in other texts */
    CHECK(callsite_of(span_by_texts((SpanMeta){1, 5, 7}, "queryapp::db"), SPAN_NO_SUCH_CALLSITE) == 99);
    CHECK(callsite_of(span_by_texts((SpanMeta){2, 5, 7}, "queryapp::dc"), SPAN_NO_SUCH_CALLSITE) == 99);
    CHECK(callsite_of(span_by_texts((SpanMeta){2, 5, 7}, "quereapp::db"), SPAN_NO_SUCH_CALLSITE) == 99);
    CHECK(callsite_of(span_by_texts((SpanMeta){2, 4, 8}, "queryapp::db"), SPAN_NO_SUCH_CALLSITE) == 99);
    CHECK(callsite_of(0, SPAN_UNKNOWN) == 99 && callsite_of(UINT64_MAX, SPAN_UNKNOWN) == 99);
    /* a closed span, and the next one of its slot */
    CHECK(span_registry_try_close(&registry, 0, other, &closed) == SPAN_OK && closed == 1);
    CHECK(callsite_of(other, SPAN_UNKNOWN) == 99);
    CHECK(span_at(0, SPAN_ROOT, 0, &next) == SPAN_OK && next == other + 16777216);
    CHECK(callsite_of(other, SPAN_UNKNOWN) == 99 && callsite_of(next, SPAN_OK) == 0);
    close_both();
}

int main(void) {
    test_wants();
    test_numbers();
    test_texts_are_kept();
    test_same_as_by_meta();
    test_bad_callsites();
    test_wrong_numbers();
    test_refusals();
    test_empty_handle();
    test_refused_memory();
    test_many();
    test_callsite_of();
    printf("%d passed, %d failed\n", passed, failed);
    return failed == 0 ? EXIT_SUCCESS : EXIT_FAILURE;
}
