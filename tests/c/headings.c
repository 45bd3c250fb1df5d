/* Headings of notes: what was said of a call, and where its span was made or its event told. The last line that it
 * prints is 'N passed, M failed'. It is linked with --wrap=malloc and --wrap=realloc, so that memory can be refused. */
#include "headings.h"

#include <stdlib.h>

/* calls of every kind, on a root by its texts and a span at a callsite below it */
static void make_calls(uint64_t ids[2]) {
    const SpanMeta meta = {1, 1, 1};
    CHECK(say(10, "01") == SPAN_OK);
    ids[0] = make_span(0, 2, "ab", 2, "kvvqq");
    CHECK(say(11, "2") == SPAN_OK);
    ids[1] = make_span_at(ids[0], 1, 1, "kvv");
    CHECK(say(12, "") == SPAN_OK);
    enter(ids[0]);
    enter(ids[1]);
    CHECK(say(13, "34") == SPAN_OK);
    CHECK(span_registry_event(&registry, 1, &meta, 2, fields, 2, bytes("nthikvvqq"), 9) == SPAN_OK);
    CHECK(say(14, "0") == SPAN_OK);
    CHECK(span_registry_event_at(&registry, 1, 0, 2, fields, 1, bytes("hikvv"), 5) == SPAN_OK);
    CHECK(tell_event() == SPAN_OK);
    CHECK(say(15, "1234") == SPAN_OK);
    CHECK(span_registry_event_in_at(&registry, 0, SPAN_UNDER, ids[1], 0, 0, fields, 1, bytes("kvv"), 3) == SPAN_OK);
    CHECK(say(16, "1") == SPAN_OK);
    record(ids[0]);
    CHECK(say(17, "0") == SPAN_OK);
    CHECK(span_registry_follows_from(&registry, 0, ids[1], ids[0]) == SPAN_OK);
    record(ids[1]);
    CHECK(say(18, "4") == SPAN_OK);
    leave(ids[1]);
    CHECK(say(19, "3") == SPAN_OK);
    share(ids[1]);
    give_back(ids[1], 0);
    leave(ids[0]);
    CHECK(say(20, "2") == SPAN_OK);
    give_back(ids[0], 0);
    CHECK(say(21, "11") == SPAN_OK);
    give_back(ids[1], 1);
}

static Told of_root(uint64_t stamp, const char *said) {
    return (Told){stamp, 0, -1, 2, "ab", "t", said};
}

static Told of_child(uint64_t stamp, uint64_t root, const char *said) {
    return (Told){stamp, root, 1, 3, "deep", "t", said};
}

/* the headings are told when all is over, and the registry is gone */
static void test_each_kind(void) {
    uint64_t ids[2];
    open_keeping(16, 64, SPAN_KINDS_ALL);
    add_callsites();
    make_calls(ids);
    check_lost(0);
    CHECK(span_registry_free(&registry) == SPAN_OK);
    CHECK_NEXT(0, ids[0], 0, NEW, of_root(10, "01"));
    CHECK_NEXT(1, ids[1], 0, NEW, of_child(11, ids[0], "2"));
    CHECK_NEXT(2, ids[0], 0, ENTER, of_root(12, "01"));
    CHECK_NEXT(3, ids[1], 0, ENTER, of_child(12, ids[0], "2"));
    /* the second layer doesn't admit the inner span, and sees events in the outer one, or in none where it is named */
    CHECK_NEXT(4, ids[1], 0, EVENT, (Told){13, ids[1], -1, 1, "n", "t", "34"});
    CHECK_NEXT(4, ids[0], 1, EVENT, (Told){13, ids[0], -1, 1, "n", "t", "34"});
    CHECK_NEXT(5, ids[1], 0, EVENT, (Told){14, ids[1], 0, 2, "site", "t", "0"});
    CHECK_NEXT(5, ids[0], 1, EVENT, (Told){14, ids[0], 0, 2, "site", "t", "0"});
    CHECK_NEXT(6, 0, 0, EVENT, (Told){14, 0, -1, 1, "n", "u", ""});
    CHECK_NEXT(7, ids[1], 0, EVENT, (Told){15, ids[1], 0, 2, "site", "t", "1234"});
    CHECK_NEXT(7, 0, 1, EVENT, (Told){15, 0, 0, 2, "site", "t", "1234"});
    CHECK_NEXT(8, ids[0], 0, RECORD, of_root(16, "1"));
    CHECK_NEXT(8, ids[0], 1, RECORD, of_root(16, "1"));
    CHECK_NEXT(9, ids[1], 0, RECORD, of_child(17, ids[0], "0"));
    CHECK_NEXT(10, ids[1], 0, RECORD, of_child(17, ids[0], ""));
    CHECK(CHECK_NEXT(11, ids[1], 0, EXIT, of_child(18, ids[0], "2")) == 0);
    /* one more handle, and one less, have no note */
    CHECK_NEXT(14, ids[0], 0, EXIT, of_root(19, "01"));
    /* it has three fields more, which were recorded */
    CHECK(CHECK_NEXT(16, ids[1], 0, CLOSE, of_child(21, ids[0], "2")) == 3);
    CHECK_NEXT(16, ids[0], 0, CLOSE, of_root(21, "01"));
    CHECK_UNTOLD(SPAN_NO_LINE);
    CHECK(span_drain_free(&drain) == SPAN_OK);
}

/* an exit closes a chain: each close has the heading of its own span */
static void test_chain(void) {
    uint64_t ids[3], closed[3] = {0, 0, 0};
    size_t len = 0;
    open_keeping(16, 64, SPAN_KIND_EXIT | SPAN_KIND_CLOSE);
    add_callsites();
    CHECK(say(1, "0") == SPAN_OK);
    ids[0] = make_span(0, 0, "root", 1, "kvv");
    CHECK(say(2, "12") == SPAN_OK);
    ids[1] = make_span_at(ids[0], 0, 2, "kvvqq");
    ids[2] = make_span(ids[1], 3, "leaf", 0, "");
    enter(ids[2]);
    for (int at = 0; at < 3; at++)
        give_back(ids[at], 0);
    CHECK(say(3, "4") == SPAN_OK);
    CHECK(span_registry_exit_closing(&registry, 1, ids[2], closed, 3, &len) == SPAN_OK && len == 3);
    CHECK_NEXT(7, ids[2], 0, EXIT, (Told){3, ids[1], -1, 3, "leaf", "t", ""});
    CHECK_NEXT(7, ids[2], 0, CLOSE, (Told){3, ids[1], -1, 3, "leaf", "t", ""});
    CHECK_NEXT(7, ids[1], 0, CLOSE, (Told){3, ids[0], 0, 2, "site", "t", "12"});
    CHECK_NEXT(7, ids[0], 0, CLOSE, (Told){3, 0, -1, 0, "root", "t", "0"});
    CHECK_UNTOLD(SPAN_NO_LINE);
    close_both();
}

/* a slot's next span isn't taken for the one before it, however their notes are read */
static void test_slot_used_again(void) {
    uint64_t first, second;
    uint32_t layer = 9;
    uint8_t into[80];
    size_t len = 0, skipped = 0;
    open_keeping(1, 64, SPAN_KINDS_ALL);
    add_callsites();
    for (int again = 0; again < 2; again++) {
        CHECK(say(5, "1") == SPAN_OK);
        first = make_span_at(0, 0, 1, "kvv");
        give_back(first, 1);
        CHECK(say(6, "2") == SPAN_OK);
        second = make_span(0, 3, "ab", 1, "kvv");
        CHECK(second == first + 16777216);
        record(second);
        give_back(second, 1);
    }
    CHECK_NEXT(0, 1, 0, NEW, (Told){5, 0, 0, 2, "site", "t", "1"});
    CHECK_NEXT(1, 1, 0, CLOSE, (Told){5, 0, 0, 2, "site", "t", "1"});
    CHECK_NEXT(2, 16777217, 0, NEW, (Told){6, 0, -1, 3, "ab", "t", "2"});
    CHECK_NEXT(3, 16777217, 0, RECORD, (Told){6, 0, -1, 3, "ab", "t", ""});
    CHECK_NEXT(4, 16777217, 0, CLOSE, (Told){6, 0, -1, 3, "ab", "t", "2"});
    CHECK(span_drain_line(&drain, &layer, into, sizeof into, &len) == SPAN_OK && layer == 0);
    CHECK_NEXT(6, first, 0, CLOSE, (Told){5, 0, 0, 2, "site", "t", "1"});
    CHECK(span_drain_skip_batch(&drain, &skipped) == SPAN_OK && skipped == 1);
    TAKE_NOTE(8, second, 0, RECORD);
    CHECK_NEXT(9, second, 0, CLOSE, (Told){6, 0, -1, 3, "ab", "t", "2"});
    close_both();
}

/* whether a call with this room tells the numbers alone */
static void check_short(const Told *told, size_t room, size_t texts_room, int line) {
    clear();
    check(tell(room, texts_room) == SPAN_SHORT_BUFFER, "a short buffer", line);
    check(kinds[0] == 7 && texts[0] == 7, "nothing is written", line);
    check_numbers(told, line);
}

static void test_short_buffers(void) {
    const Told told = {7, 0, -1, 2, "abc", "t", "42"};
    open_keeping(16, 64, SPAN_KINDS_ALL);
    CHECK_UNTOLD(SPAN_NO_LINE);
    CHECK(say(7, "42") == SPAN_OK);
    make_span(0, 2, "abc", 2, "kvvqq");
    check_short(&told, 1, 4, __LINE__);
    check_short(&told, 2, 3, __LINE__);
    check_short(&told, 0, 0, __LINE__);
    clear();
    /* it came out, so it takes no memory */
    allocations_left = 0;
    CHECK(tell(2, 4) == SPAN_OK);
    allocations_left = -1;
    check_told(&told, __LINE__);
    /* its note is still the next one */
    TAKE_NOTE(0, 1, 0, NEW);
    CHECK_UNTOLD(SPAN_NO_LINE);
    close_both();
}

/* bad kinds and refused memory leave what was said before, and so do a refused call and a span that no layer wants */
static void test_what_stays_said(void) {
    const uint8_t bad[3] = {4, 5, 0}, worse[1] = {255};
    const uint8_t each[] = {SPAN_VALUE_TEXT, SPAN_VALUE_INTEGER, SPAN_VALUE_FLOAT, SPAN_VALUE_BOOL, SPAN_VALUE_NULL};
    uint64_t id;
    open_keeping(16, 64, SPAN_KINDS_ALL);
    CHECK(span_registry_say_of_calls(&registry, 7, each, 5) == SPAN_OK);
    CHECK(span_registry_say_of_calls(&registry, 8, bad, 3) == SPAN_BAD_DATA);
    CHECK(span_registry_say_of_calls(&registry, 8, worse, 1) == SPAN_BAD_DATA);
    allocations_left = 0;
    CHECK(say(8, "1") == SPAN_OUT_OF_MEMORY);
    CHECK(span_registry_say_of_calls(&registry, 8, bad, 3) == SPAN_BAD_DATA);
    allocations_left = -1;
    CHECK(span_registry_record(&registry, 0, 1, fields, 1, bytes("kvv"), 3) == SPAN_UNKNOWN);
    CHECK(make_span(0, 4, "a", 0, "") == 0);
    id = make_span(0, 3, "a", 0, "");
    CHECK_NEXT(0, id, 0, NEW, (Told){7, 0, -1, 3, "a", "t", "01234"});
    /* what is said again takes the place of what was said */
    CHECK(say(9, "11") == SPAN_OK && say(10, "") == SPAN_OK);
    record(id);
    CHECK_NEXT(1, id, 0, RECORD, (Told){10, 0, -1, 3, "a", "t", ""});
    close_both();
}

static void test_without_headings(void) {
    uint64_t id, lost = 97;
    CHECK(open_one(usual_limits, SPAN_KINDS_ALL, 0) == SPAN_OK);
    CHECK(say(1, "") == SPAN_BAD_DATA && say(1, "0") == SPAN_BAD_DATA);
    CHECK(span_registry_headings_lost(&registry, &lost) == SPAN_BAD_DATA && lost == 97);
    id = make_span(0, 2, "a", 0, "");
    CHECK_UNTOLD(SPAN_BAD_DATA);
    CHECK_COUNTS(0, 0);
    TAKE_NOTE(0, id, 0, NEW);
    close_both();
}

static void test_empty_handles(void) {
    uint64_t lost = 97;
    CHECK(say(1, "0") == SPAN_EMPTY_HANDLE && say(1, "5") == SPAN_EMPTY_HANDLE);
    CHECK(span_registry_headings_lost(&registry, &lost) == SPAN_EMPTY_HANDLE && lost == 97);
    CHECK_UNTOLD(SPAN_EMPTY_HANDLE);
}

/* how often memory is refused to the opening until it is done */
static long refusals_of_opening(int keeps) {
    uint32_t status;
    long allowed = 0;
    do {
        CHECK(registry.at == NULL && drain.at == NULL);
        allocations_left = allowed++;
        status = open_one(usual_limits, SPAN_KINDS_ALL, keeps);
        allocations_left = -1;
        CHECK(status == SPAN_OK || status == SPAN_OUT_OF_MEMORY);
    } while (status != SPAN_OK && allowed < 1000);
    close_both();
    return allowed - 1;
}

static void test_refused_opening(void) {
    const SpanLimits no_slots = {0, 0, 1, 1, 1};
    const SpanLayer layers[65] = {{2, 0, 0}};
    const SpanRule rule = {0, 9};
    CHECK(refusals_of_opening(1) > refusals_of_opening(0));
    CHECK(open_one(no_slots, 16, 1) == SPAN_BAD_LIMITS);
    CHECK(span_registry_new_with_headings(&registry, &drain, &usual_limits, layers, 65, &rule, 1, bytes(""), 0)
        == SPAN_TOO_MANY_LAYERS);
    CHECK(open_one(usual_limits, 16, 1) == SPAN_BAD_DATA);
    CHECK(registry.at == NULL && drain.at == NULL);
    open_keeping(16, 64, 0);
    CHECK(open_one(no_slots, 16, 1) == SPAN_HANDLE_IN_USE);
    check_lost(0);
    close_both();
}

int main(void) {
    test_empty_handles();
    test_without_headings();
    test_refused_opening();
    test_each_kind();
    test_chain();
    test_slot_used_again();
    test_short_buffers();
    test_what_stays_said();
    printf("%d passed, %d failed\n", passed, failed);
    return failed == 0 ? EXIT_SUCCESS : EXIT_FAILURE;
}
