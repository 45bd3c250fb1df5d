/* Random calls on stores of few slots, each against a plain model of this file's own: what every call answers and
 * writes, what every id that was ever given finds then, what is counted, and a walk. The model counts children by
 * looking at all spans, and notes of each span how often it was told to be closing: once, after all of its children
 * ended. The argument is how many stores are tried. The last line that is printed is 'N passed, M failed'. */
#include "span_store.h"

#include <stdint.h>
#include <stdio.h>
#include <stdlib.h>
#include <string.h>

enum { MOST_SLOTS = 6, MOST_SPANS = 64, CALLS = 240 };

typedef struct Span {
    uint64_t id, parent, bits, word;
    uint32_t handles;
    int is_there, told;
} Span;

typedef struct Model {
    uint32_t slots, last_generation, max_count;
    uint64_t given[MOST_SLOTS];
    uint32_t freed[MOST_SLOTS], freed_len;
    Span spans[MOST_SPANS];
    int spans_len;
} Model;

static int passed, failed;
/* how many spans were told by a release, and how many by the end of a child */
static unsigned long told_by_release, told_by_end;
static uint64_t seed, call;
static SpanStore store;
static Model model;

static void check(int good, const char *what) {
    if (good) {
        passed++;
        return;
    }
    failed++;
    printf("store %llu, call %llu: %s\n", (unsigned long long)seed, (unsigned long long)call, what);
}

static uint64_t state;

/* xorshift64* */
static uint64_t dice(void) {
    state ^= state >> 12;
    state ^= state << 25;
    state ^= state >> 27;
    return state * UINT64_C(2685821657736338717);
}

static uint32_t below(uint32_t n) {
    return (uint32_t)(dice() >> 33) % n;
}

/* ---- the model */

static Span *span_of(uint64_t id) {
    for (int i = 0; i < model.spans_len; i++)
        if (model.spans[i].is_there && model.spans[i].id == id)
            return &model.spans[i];
    return NULL;
}

static uint32_t children(uint64_t id) {
    uint32_t count = 0;
    for (int i = 0; i < model.spans_len; i++)
        count += model.spans[i].is_there && model.spans[i].parent == id;
    return count;
}

static uint32_t holders(const Span *span) {
    return span->handles + children(span->id);
}

static uint32_t why_not_held(const Span *span) {
    if (span == NULL || holders(span) == 0)
        return SPAN_STORE_UNKNOWN;
    return holders(span) < model.max_count ? SPAN_STORE_OK : SPAN_STORE_COUNT_FULL;
}

/* a slot that was freed, the last one first, else one that was never used; none: as many as there are */
static uint32_t next_slot(void) {
    if (model.freed_len > 0)
        return model.freed[model.freed_len - 1];
    uint32_t slot = 0;
    while (slot < model.slots && model.given[slot] > 0)
        slot++;
    return slot;
}

static uint64_t tells(Span *span) {
    if (holders(span) > 0)
        return 0;
    span->told++;
    check(span->told == 1, "a span is told once");
    return span->id;
}

/* ---- a call on both */

static void add(uint64_t parent) {
    uint64_t id = 99, wanted = 99, bits = dice(), word = dice();
    uint32_t slot = next_slot();
    uint32_t status = parent == 0 ? SPAN_STORE_OK : why_not_held(span_of(parent));
    if (status == SPAN_STORE_OK && slot == model.slots)
        status = SPAN_STORE_FULL;
    if (status == SPAN_STORE_OK) {
        wanted = model.given[slot] * 16777216 + slot + 1;
        model.freed_len -= model.freed_len > 0;
        model.given[slot]++;
        model.spans[model.spans_len++] = (Span){wanted, parent, bits, word, 1, 1, 0};
    }
    check(span_store_add(&store, parent, bits, word, &id) == status && id == wanted, "add");
}

static void keep(uint64_t id) {
    Span *span = span_of(id);
    uint32_t status = why_not_held(span);
    if (status == SPAN_STORE_OK)
        span->handles++;
    check(span_store_keep(&store, id) == status, "keep");
}

static void release(uint64_t id) {
    Span *span = span_of(id);
    uint32_t closing = 99, wanted = 99, status = SPAN_STORE_UNKNOWN;
    if (span != NULL && span->handles > 0) {
        span->handles--;
        status = SPAN_STORE_OK;
        wanted = tells(span) != 0;
        told_by_release += wanted;
    }
    check(span_store_release(&store, id, &closing) == status && closing == wanted, "release");
}

static void end(uint64_t id) {
    Span *span = span_of(id);
    uint64_t parent = 99, wanted = 99;
    uint32_t status = SPAN_STORE_UNKNOWN;
    if (span != NULL && holders(span) == 0) {
        uint32_t slot = (uint32_t)((id - 1) % 16777216);
        status = SPAN_STORE_OK;
        check(span->told == 1, "what ends was told");
        span->is_there = 0;
        if (model.given[slot] <= model.last_generation)
            model.freed[model.freed_len++] = slot;
        wanted = span->parent == 0 ? 0 : tells(span_of(span->parent));
        told_by_end += wanted != 0;
    }
    check(span_store_ended(&store, id, &parent) == status && parent == wanted, "ended");
}

/* ---- what can be seen */

static void compare_span(const Span *span) {
    SpanStoreFound found = {1, 2, 3, 4, 5};
    uint32_t status = span_store_find(&store, span->id, &found);
    if (span->is_there)
        check(status == SPAN_STORE_OK && found.parent == span->parent && found.bits == span->bits
            && found.word == span->word && found.handles == span->handles && found.children == children(span->id),
            "what is there");
    else
        check(status == SPAN_STORE_UNKNOWN && found.parent == 1 && found.children == 5, "what ended");
}

static void compare_walk(uint32_t spans) {
    uint64_t id = 0, before = 0;
    uint32_t met = 0;
    while (span_store_next(&store, id, &id) == SPAN_STORE_OK && id != 0 && met <= spans) {
        check(span_of(id) != NULL && (met == 0 || (before - 1) % 16777216 < (id - 1) % 16777216), "a walk");
        before = id;
        met++;
    }
    check(met == spans, "a walk meets all");
}

static void compare_details(uint32_t spans) {
    SpanStoreDetails into[MOST_SLOTS];
    size_t len = 99;
    check(span_store_details(&store, into, MOST_SLOTS, &len) == SPAN_STORE_OK && len == spans, "details of all");
    for (size_t at = 0; at < len && at < MOST_SLOTS; at++) {
        const SpanStoreDetails *told = &into[at];
        const Span *span = span_of(told->id);
        check(span != NULL && told->parent == span->parent && told->word == span->word
            && told->handles == span->handles && told->children == children(told->id)
            && told->closing == (holders(span) == 0), "details");
        check(at == 0 || (into[at - 1].id - 1) % 16777216 < (told->id - 1) % 16777216, "details by slots");
    }
}

static void compare(void) {
    SpanStoreCounts counts = {99, 99};
    uint64_t handles = 0;
    uint32_t spans = 0;
    for (int i = 0; i < model.spans_len; i++) {
        compare_span(&model.spans[i]);
        if (model.spans[i].is_there) {
            handles += model.spans[i].handles;
            spans++;
        }
    }
    check(span_store_counts(&store, &counts) == SPAN_STORE_OK && counts.handles == handles && counts.spans == spans,
        "counts");
    compare_walk(spans);
    compare_details(spans);
}

/* mostly the id of a span that is there, else one that was given once or is near one, or any number */
static uint64_t some_id(void) {
    if (model.spans_len == 0 || below(32) == 0) {
        uint64_t number = dice();
        return number >> below(64);
    }
    const Span *span = &model.spans[below((uint32_t)model.spans_len)];
    for (int more = 0; more < 12 && !span->is_there; more++)
        span = &model.spans[below((uint32_t)model.spans_len)];
    uint64_t id = span->id;
    if (below(32) == 0)
        id += below(2);
    if (below(32) == 0)
        id += 16777216 * (uint64_t)below(3);
    return id;
}

static void call_any(void) {
    uint32_t which = below(10);
    if (which == 0)
        add(0);
    else if (which < 4)
        add(some_id());
    else if (which == 4)
        keep(some_id());
    else if (which < 8)
        release(some_id());
    else
        end(some_id());
}

static void try_store(void) {
    memset(&model, 0, sizeof model);
    model.slots = 1 + below(MOST_SLOTS);
    model.last_generation = below(3) == 0 ? UINT32_MAX : below(4);
    model.max_count = 1 + below(4);
    check(span_store_new(&store, model.slots, model.last_generation, model.max_count) == SPAN_STORE_OK, "new");
    for (call = 0; call < CALLS && model.spans_len < MOST_SPANS; call++) {
        call_any();
        compare();
    }
    check(span_store_free(&store) == SPAN_STORE_OK, "free");
}

int main(int count, char **arguments) {
    uint64_t stores = count > 1 ? strtoull(arguments[1], NULL, 10) : 60;
    for (seed = 1; seed <= stores; seed++) {
        state = seed * UINT64_C(0x9e3779b97f4a7c15);
        try_store();
    }
    check(told_by_release > 5 * stores && told_by_end > stores, "enough was told");
    printf("%lu spans were told by a release, %lu by the end of a child\n", told_by_release, told_by_end);
    printf("%d passed, %d failed\n", passed, failed);
    return failed == 0 ? EXIT_SUCCESS : EXIT_FAILURE;
}
