/* How headings are lost, and that no other is told in their place; and a thread that reads them beside one that calls.
 * The last line that it prints is 'N passed, M failed'. It is linked with --wrap=malloc and --wrap=realloc, so that
 * memory can be refused. */
#include "headings.h"

#include <pthread.h>
#include <sched.h>
#include <stdatomic.h>
#include <stdlib.h>

/* takes a batch without a note, where so many allocations are left to the drain; wanted: how many were taken so far */
static void take_batch(long allocations, uint64_t wanted) {
    uint32_t layer;
    uint8_t into[1];
    size_t len;
    allocations_left = allocations;
    CHECK(span_drain_line(&drain, &layer, into, sizeof into, &len) == SPAN_NO_LINE);
    allocations_left = -1;
    CHECK_COUNTS(wanted, 0);
}

/* as many calls as the ring has places, and reading, by turns: none is lost */
static void test_none_lost(uint32_t ring) {
    uint64_t id, calls = 1;
    open_keeping(16, ring, 0);
    id = make_span(0, 3, "ab", 0, "");
    take_batch(-1, 1);
    for (int round = 0; round < 20; round++) {
        for (uint32_t call = 0; call < ring; call++)
            share(id);
        calls += ring;
        take_batch(-1, calls);
    }
    check_lost(0);
    CHECK(say(1, "4") == SPAN_OK);
    record(id);
    CHECK_NEXT(calls, id, 0, RECORD, (Told){1, 0, -1, 3, "ab", "t", "4"});
    close_both();
}

/* Where memory is refused to the drain, headings stay in their ring, so that it has no place for later ones. That of an
 * event is lost. */
static void test_lost_for_want_of_a_place(void) {
    uint64_t id;
    open_keeping(16, 1, 0);
    id = make_span(0, 3, "ab", 0, "");
    take_batch(-1, 1);
    for (uint64_t batches = 1; batches < 4; batches++) {
        share(id);
        take_batch(0, batches + 1);
    }
    check_lost(0);
    CHECK(tell_event() == SPAN_OK);
    check_lost(1);
    /* no later one is there yet */
    CHECK_UNTOLD(SPAN_NO_LINE);
    share(id);
    CHECK_UNTOLD(SPAN_UNKNOWN);
    CHECK_UNTOLD(SPAN_UNKNOWN);
    TAKE_NOTE(4, 0, 0, EVENT);
    CHECK(say(9, "1") == SPAN_OK);
    take_batch(-1, 6);
    record(id);
    CHECK_NEXT(6, id, 0, RECORD, (Told){9, 0, -1, 3, "ab", "t", "1"});
    check_lost(1);
    close_both();
}

/* That of a new span is lost: its notes have no heading, and not that of the span before it in its slot. */
static void test_lost_of_a_span(void) {
    uint64_t first, second;
    open_keeping(1, 1, 0);
    first = make_span(0, 3, "ab", 0, "");
    take_batch(-1, 1);
    share(first);
    take_batch(0, 2);
    share(first);
    take_batch(0, 3);
    give_back(first, 0);
    take_batch(0, 4);
    give_back(first, 0);
    take_batch(0, 5);
    give_back(first, 1);
    take_batch(0, 6);
    second = make_span(0, 3, "ab", 0, "");
    CHECK(second == first + 16777216);
    check_lost(3);
    take_batch(-1, 7);
    record(second);
    CHECK_UNTOLD(SPAN_UNKNOWN);
    TAKE_NOTE(7, second, 0, RECORD);
    CHECK(tell_event() == SPAN_OK);
    CHECK_NEXT(8, 0, 0, EVENT, (Told){0, 0, -1, 1, "n", "u", ""});
    check_lost(3);
    close_both();
}

/* a target that is too long to be remembered, so that each reading of it takes memory */
static char long_target[131];

static uint32_t tell_long_event(void) {
    const SpanMeta meta = {1, 1, 130};
    char all[132];
    memset(long_target, 'u', 130);
    snprintf(all, sizeof all, "n%s", long_target);
    return span_registry_event_in(&registry, 0, SPAN_ROOT, 0, &meta, 0, fields, 0, bytes(all), 131);
}

/* whether the event's heading was lost, or else told; and then that what was said for it isn't told of the next call */
static void check_long_event(uint64_t batch, uint64_t id, int was_lost) {
    clear();
    CHECK(tell(7, 39) == (was_lost ? SPAN_NO_LINE : SPAN_SHORT_BUFFER));
    if (!was_lost)
        check_numbers(&(Told){4, 0, -1, 1, "n", long_target, "3"}, __LINE__);
    TAKE_NOTE(batch, 0, 0, EVENT);
    record(id);
    CHECK_NEXT(batch + 1, id, 0, RECORD, (Told){4, 0, -1, 3, "ab", "t", ""});
}

/* memory is refused to the heading of a call that is done */
static void test_lost_for_want_of_memory(void) {
    uint64_t id, lost = 0, before, batch = 1;
    uint32_t status;
    long allowed = 0;
    open_keeping(16, 64, 0);
    id = make_span(0, 3, "ab", 0, "");
    do {
        before = lost;
        CHECK(say(4, "3") == SPAN_OK);
        allocations_left = allowed++;
        status = tell_long_event();
        allocations_left = -1;
        CHECK(span_registry_headings_lost(&registry, &lost) == SPAN_OK);
        if (status == SPAN_OK) {
            check_long_event(batch, id, lost > before);
            batch += 2;
        } else {
            CHECK(status == SPAN_OUT_OF_MEMORY && lost == before);
            CHECK_UNTOLD(SPAN_NO_LINE);
        }
    } while ((status != SPAN_OK || lost > before) && allowed < 1000);
    CHECK(status == SPAN_OK && lost > 0);
    close_both();
}

/* asks for a heading where so many allocations are left to the drain; what is refused is told when it is asked again,
 * unless its note was missed; returns the status, and whether the note wasn't missed */
static uint32_t tell_with(long allocations, int *has_note) {
    const Told told = {4, 0, -1, 3, "ab", "t", "3"};
    uint64_t id, batches = 99, missed = 99;
    uint32_t status;
    open_keeping(16, 64, 0);
    id = make_span(0, 3, "ab", 0, "");
    CHECK(say(4, "3") == SPAN_OK);
    record(id);
    clear();
    allocations_left = allocations;
    status = tell(7, 39);
    allocations_left = -1;
    if (status == SPAN_OK)
        check_told(&told, __LINE__);
    else
        CHECK(heading.stamp == 0x0707070707070707 && kinds_len == 98 && texts_len == 99);
    CHECK(span_drain_counts(&drain, &batches, &missed) == SPAN_OK && batches == 2 && missed < 2);
    CHECK(missed == 0 ? status != SPAN_NO_LINE : status != SPAN_OK);
    *has_note = missed == 0;
    if (*has_note)
        CHECK_NEXT(1, id, 0, RECORD, told);
    close_both();
    return status;
}

static void test_refused_to_the_drain(void) {
    uint32_t status;
    int has_note;
    long allowed = 0, refused = 0;
    do {
        status = tell_with(allowed++, &has_note);
        CHECK(status == SPAN_OK || status == SPAN_OUT_OF_MEMORY || status == SPAN_NO_LINE);
        refused += status == SPAN_OUT_OF_MEMORY && has_note;
    } while (status != SPAN_OK && allowed < 1000);
    CHECK(status == SPAN_OK && refused > 0);
}

/* ---- a thread that reads beside one that calls */

enum { ROUNDS = 2000 };

static atomic_int no_more_calls, reader_is_over;
static uint64_t the_span;

/* how many events were read with their headings, in order, and how many other notes */
typedef struct Read {
    uint64_t told, untold;
} Read;

static void *read_headings(void *counts) {
    Read *read = counts;
    SpanNote note;
    SpanField none[1];
    uint8_t all[8];
    size_t count, len;
    for (;;) {
        const int last = atomic_load(&no_more_calls);
        const uint32_t status = tell(8, 40);
        /* the heading may be on its way */
        if (status == SPAN_NO_LINE && !last) {
            sched_yield();
            continue;
        }
        if (span_drain_note(&drain, &note, none, 1, &count, all, sizeof all, &len) != SPAN_OK)
            break;
        if (status == SPAN_OK && heading.stamp == read->told && kinds_len == 1 && kinds[0] == heading.stamp % 5)
            read->told++;
        else
            read->untold++;
    }
    atomic_store(&reader_is_over, 1);
    return NULL;
}

static uint32_t share_it(void) {
    return span_registry_clone_span(&registry, 0, the_span);
}

static uint32_t give_it_back(void) {
    uint32_t closed;
    return span_registry_try_close(&registry, 0, the_span, &closed);
}

/* no longer than somebody reads */
static int until_there_is_room(uint32_t (*call)(void)) {
    uint32_t status;
    while ((status = call()) == SPAN_BACKLOG && !atomic_load(&reader_is_over))
        sched_yield();
    return status == SPAN_OK;
}

/* events, and behind each two calls without a note: no heading is lost, however the threads run */
static void test_reader_in_another_thread(uint32_t ring) {
    Read read = {0, 0};
    int good = 1;
    pthread_t reader;
    atomic_store(&no_more_calls, 0);
    atomic_store(&reader_is_over, 0);
    open_keeping(1, ring, 0);
    the_span = make_span(0, 3, "ab", 0, "");
    if (pthread_create(&reader, NULL, read_headings, &read) != 0) {
        check(0, "a thread", __LINE__);
        close_both();
        return;
    }
    for (uint64_t round = 0; round < ROUNDS; round++) {
        const char digit[2] = {(char)('0' + round % 5), 0};
        good &= say(round, digit) == SPAN_OK && until_there_is_room(tell_event);
        good &= until_there_is_room(share_it) && until_there_is_room(give_it_back);
    }
    atomic_store(&no_more_calls, 1);
    CHECK(pthread_join(reader, NULL) == 0);
    CHECK(good && read.told == ROUNDS && read.untold == 0);
    check_lost(0);
    close_both();
}

int main(void) {
    for (uint32_t ring = 1; ring < 4; ring++)
        test_none_lost(ring);
    test_lost_for_want_of_a_place();
    test_lost_of_a_span();
    test_lost_for_want_of_memory();
    test_refused_to_the_drain();
    for (uint32_t ring = 1; ring < 9; ring *= 2)
        test_reader_in_another_thread(ring);
    printf("%d passed, %d failed\n", passed, failed);
    return failed == 0 ? EXIT_SUCCESS : EXIT_FAILURE;
}
