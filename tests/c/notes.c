/* Notes that are told in place of their lines: their numbers and texts, what of the buffers stays, and that a note which
 * isn't told is the next one. The last line that it prints is 'N passed, M failed'. It is linked with --wrap=malloc and
 * --wrap=realloc, so that memory can be refused. */
#include "checks.h"
#include "span_registry.h"

#include <stdio.h>
#include <stdlib.h>
#include <string.h>

static SpanRegistry registry;
static SpanDrain drain;
static SpanNote note;
static SpanField fields[4];
static uint8_t texts[40];
static size_t fields_len, texts_len;
static const SpanField no_fields[1];

/* two layers: the first sees all, the other what is told of the target `t` up to INFO, but for new spans and the like */
static void open_both(uint32_t ring) {
    const SpanLimits limits = {16, 4294967295u, 4294967295u, 2, ring};
    const SpanLayer layers[] = {{0, SPAN_KINDS_ALL, 1}, {1, 0, 1}};
    const SpanRule rules[] = {{0, 4}, {1, 2}};
    CHECK(span_registry_new(&registry, &drain, &limits, layers, 2, rules, 2, (const uint8_t *)"t", 1) == SPAN_OK);
}

static void close_both(void) {
    CHECK(span_registry_free(&registry) == SPAN_OK);
    CHECK(span_drain_free(&drain) == SPAN_OK);
}

static uint64_t make_span(uint64_t parent, uint32_t level, const char *name, const SpanField *said, size_t count,
    const char *pairs) {
    const SpanMeta meta = {level, (uint32_t)strlen(name), 1};
    char all[40];
    uint64_t id = 0;
    const int len = snprintf(all, sizeof all, "%st%s", name, pairs);
    CHECK(span_registry_new_span(&registry, 0, parent == 0 ? SPAN_ROOT : SPAN_UNDER, parent, &meta, said, count,
        (const uint8_t *)all, (size_t)len, &id) == SPAN_OK);
    return id;
}

static uint32_t tell(size_t room, size_t texts_room) {
    return span_drain_note(&drain, &note, fields, room, &fields_len, texts, texts_room, &texts_len);
}

static void clear(void) {
    memset(&note, 7, sizeof note);
    memset(fields, 7, sizeof fields);
    memset(texts, 7, sizeof texts);
    fields_len = 98, texts_len = 99;
}

/* whether the note that was told has these numbers, fields and texts, and nothing was written behind them */
static void check_note(const SpanNote *wanted, const SpanField *said, size_t count, const char *all) {
    const size_t len = strlen(all);
    CHECK(memcmp(&note, wanted, sizeof note) == 0 && fields_len == count && texts_len == len);
    CHECK(memcmp(fields, said, count * sizeof *said) == 0 && memcmp(texts, all, len) == 0);
    CHECK(fields[count].key_len == 0x07070707 && texts[len] == 7);
}

/* whether a call with this room tells the numbers of the note that is next, and how long it is, and writes no text */
static void check_short(const SpanNote *wanted, size_t count, size_t len, size_t room, size_t texts_room) {
    clear();
    CHECK(tell(room, texts_room) == SPAN_SHORT_BUFFER && fields_len == count && texts_len == len);
    CHECK(memcmp(&note, wanted, sizeof note) == 0 && fields[0].key_len == 0x07070707 && texts[0] == 7);
}

static void check_next(SpanNote wanted, const SpanField *said, size_t count, const char *all) {
    clear();
    CHECK(tell(3, 39) == SPAN_OK);
    check_note(&wanted, said, count, all);
}

static void check_unwritten(void) {
    CHECK(note.batch == 0x0707070707070707 && fields[0].key_len == 0x07070707 && texts[0] == 7);
}

static void check_line(uint32_t wanted, const char *text) {
    uint8_t into[100];
    uint32_t layer = 9;
    size_t len = 0;
    CHECK(span_drain_line(&drain, &layer, into, sizeof into, &len) == SPAN_OK && layer == wanted);
    CHECK(len == strlen(text) && memcmp(into, text, len) == 0);
}

static void test_each_kind(void) {
    const SpanField said[2] = {{1, 2}, {2, 0}};
    const SpanMeta warning = {1, 1, 1};
    uint64_t first, second;
    uint32_t answer;
    open_both(64);
    first = make_span(0, 2, "ab", said, 2, "kvvqq");
    second = make_span(first, 3, "c", no_fields, 0, "");
    check_next((SpanNote){0, first, 0, 0, 0, 0, 2, 0}, said, 2, "abkvvqq");
    check_next((SpanNote){1, second, 0, 0, 0, 0, 4, 0}, no_fields, 0, "ab:c");
    CHECK(span_registry_enter(&registry, 1, first, &answer) == SPAN_OK);
    CHECK(span_registry_enter(&registry, 1, second, &answer) == SPAN_OK);
    check_next((SpanNote){2, first, 0, 3, 1, 0, 2, 0}, no_fields, 0, "ab");
    check_next((SpanNote){3, second, 0, 3, 1, 0, 4, 0}, no_fields, 0, "ab:c");
    /* the second layer doesn't admit the inner span, and sees the event in the outer one */
    CHECK(span_registry_event(&registry, 1, &warning, 3, said, 1, (const uint8_t *)"nthi\nkvv", 8) == SPAN_OK);
    check_next((SpanNote){4, second, 0, 2, 1, 1, 4, 3}, said, 1, "ab:chi\nkvv");
    check_next((SpanNote){4, first, 1, 2, 1, 1, 2, 3}, said, 1, "abhi\nkvv");
    CHECK(span_registry_event_in(&registry, 0, SPAN_ROOT, 0, &warning, 0, no_fields, 0, (const uint8_t *)"nu", 2)
        == SPAN_OK);
    check_next((SpanNote){5, 0, 0, 2, 0, 1, 1, 0}, no_fields, 0, "-");
    CHECK(span_registry_record(&registry, 0, first, said + 1, 1, (const uint8_t *)"qq", 2) == SPAN_OK);
    check_next((SpanNote){6, first, 0, 1, 0, 0, 2, 0}, said + 1, 1, "abqq");
    check_next((SpanNote){6, first, 1, 1, 0, 0, 2, 0}, said + 1, 1, "abqq");
    CHECK(span_registry_exit(&registry, 1, second, &answer) == SPAN_OK && answer == 0);
    check_next((SpanNote){7, second, 0, 4, 1, 0, 4, 0}, no_fields, 0, "ab:c");
    /* a batch without a note has its number too */
    CHECK(span_registry_clone_span(&registry, 0, second) == SPAN_OK);
    CHECK(span_registry_try_close(&registry, 0, second, &answer) == SPAN_OK && answer == 0);
    CHECK(span_registry_try_close(&registry, 0, second, &answer) == SPAN_OK && answer == 1);
    check_next((SpanNote){10, second, 0, 5, 0, 0, 4, 0}, no_fields, 0, "ab:c");
    clear();
    CHECK(tell(3, 39) == SPAN_NO_LINE && fields_len == 98 && texts_len == 99);
    check_unwritten();
    close_both();
}

/* a note and a line are told by turns, each once */
static void test_notes_and_lines(void) {
    const SpanField said[1] = {{1, 1}};
    uint64_t id;
    open_both(64);
    id = make_span(0, 2, "a", said, 1, "kv");
    check_line(0, "new 1 w0 a k=v");
    for (int again = 0; again < 2; again++)
        CHECK(span_registry_record(&registry, 1, id, said, 1, (const uint8_t *)"kv", 2) == SPAN_OK);
    check_next((SpanNote){1, id, 0, 1, 1, 0, 1, 0}, said, 1, "akv");
    check_line(1, "{\"fields\":[[\"k\",\"v\"]],\"id\":1,\"kind\":\"record\",\"path\":\"a\",\"worker\":1}");
    check_line(0, "record 1 w1 a k=v");
    check_next((SpanNote){2, id, 1, 1, 1, 0, 1, 0}, said, 1, "akv");
    close_both();
}

/* without room a program learns of which layer the next note is, and takes it or its line */
static void test_a_layer_before_its_note(void) {
    const SpanField said[1] = {{1, 1}};
    const SpanMeta info = {2, 1, 1};
    uint64_t id;
    open_both(64);
    id = make_span(0, 2, "a", said, 1, "kv");
    CHECK(span_registry_record(&registry, 1, id, said, 1, (const uint8_t *)"qw", 2) == SPAN_OK);
    CHECK(span_registry_event_in(&registry, 0, SPAN_ROOT, 0, &info, 2, no_fields, 0, (const uint8_t *)"nthi", 4)
        == SPAN_OK);
    check_short(&(SpanNote){0, id, 0, 0, 0, 0, 1, 0}, 1, 3, 0, 0);
    check_line(0, "new 1 w0 a k=v");
    check_short(&(SpanNote){1, id, 0, 1, 1, 0, 1, 0}, 1, 3, 3, 0);
    check_line(0, "record 1 w1 a q=w");
    check_short(&(SpanNote){1, id, 1, 1, 1, 0, 1, 0}, 1, 3, 0, 39);
    check_next((SpanNote){1, id, 1, 1, 1, 0, 1, 0}, said, 1, "aqw");
    check_short(&(SpanNote){2, 0, 0, 2, 0, 2, 1, 2}, 0, 3, 0, 0);
    check_line(0, "event 0 w0 - INFO hi");
    check_short(&(SpanNote){2, 0, 1, 2, 0, 2, 1, 2}, 0, 3, 3, 2);
    check_next((SpanNote){2, 0, 1, 2, 0, 2, 1, 2}, no_fields, 0, "-hi");
    clear();
    CHECK(tell(0, 0) == SPAN_NO_LINE);
    check_unwritten();
    close_both();
}

static void test_short_buffers(void) {
    const SpanField said[2] = {{1, 2}, {2, 0}};
    SpanNote wanted = {0, 0, 0, 0, 0, 0, 3, 0};
    clear();
    CHECK(tell(2, 8) == SPAN_EMPTY_HANDLE && fields_len == 98 && texts_len == 99);
    open_both(64);
    CHECK(tell(2, 8) == SPAN_NO_LINE && fields_len == 98 && texts_len == 99);
    check_unwritten();
    wanted.id = make_span(0, 2, "abc", said, 2, "kvvqq");
    check_short(&wanted, 2, 8, 1, 8);
    check_short(&wanted, 2, 8, 2, 7);
    check_short(&wanted, 2, 8, 0, 0);
    clear();
    /* it waits, so it takes no memory */
    allocations_left = 0;
    CHECK(tell(2, 8) == SPAN_OK);
    allocations_left = -1;
    check_note(&wanted, said, 2, "abckvvqq");
    close_both();
}

/* where memory is refused for its line, a note is missed */
static void test_missed(void) {
    uint64_t batches, missed;
    open_both(64);
    make_span(0, 2, "a", no_fields, 0, "");
    clear();
    allocations_left = 0;
    CHECK(tell(3, 39) == SPAN_NO_LINE);
    allocations_left = -1;
    check_unwritten();
    CHECK(span_drain_counts(&drain, &batches, &missed) == SPAN_OK && batches == 1 && missed == 1);
    close_both();
}

int main(void) {
    test_each_kind();
    test_notes_and_lines();
    test_a_layer_before_its_note();
    test_short_buffers();
    test_missed();
    printf("%d passed, %d failed\n", passed, failed);
    return failed == 0 ? EXIT_SUCCESS : EXIT_FAILURE;
}
