/* Uses the C interface of the store: what its calls answer and give, and what they leave as it was. The last line that
 * it prints is 'N passed, M failed'. It is linked with --wrap=malloc and --wrap=realloc, so that memory can be
 * refused. */
#include "checks.h"
#include "span_store.h"

#include <pthread.h>
#include <stdatomic.h>
#include <stdint.h>
#include <stdio.h>
#include <stdlib.h>
#include <string.h>

/* ---- short forms of the calls */

static SpanStore store;

static void open_store(uint32_t slots, uint32_t last_generation, uint32_t max_count) {
    CHECK(span_store_new(&store, slots, last_generation, max_count) == SPAN_STORE_OK && store.at != NULL);
}

static void close_store(void) {
    CHECK(span_store_free(&store) == SPAN_STORE_OK && store.at == NULL);
}

/* the id of a span that has to be made */
static uint64_t made(uint64_t parent, uint64_t bits, uint64_t word) {
    uint64_t id = 0;
    CHECK(span_store_add(&store, parent, bits, word, &id) == SPAN_STORE_OK && id != 0);
    return id;
}

/* 1 or 0 as it was told; 9 where the handle couldn't be given back */
static uint32_t released(uint64_t id) {
    uint32_t closing = 9;
    return span_store_release(&store, id, &closing) == SPAN_STORE_OK ? closing : 9;
}

/* what was told of the parent; 9 where there was no end */
static uint64_t ended(uint64_t id) {
    uint64_t parent = 9;
    return span_store_ended(&store, id, &parent) == SPAN_STORE_OK ? parent : 9;
}

static uint64_t next(uint64_t id) {
    uint64_t found = 99;
    CHECK(span_store_next(&store, id, &found) == SPAN_STORE_OK);
    return found;
}

static int has_counts(uint64_t handles, uint32_t spans) {
    SpanStoreCounts counts;
    return span_store_counts(&store, &counts) == SPAN_STORE_OK && counts.handles == handles && counts.spans == spans;
}

static int is_found(uint64_t id, SpanStoreFound wanted) {
    SpanStoreFound found;
    return span_store_find(&store, id, &found) == SPAN_STORE_OK && found.parent == wanted.parent
        && found.bits == wanted.bits && found.word == wanted.word && found.handles == wanted.handles
        && found.children == wanted.children;
}

/* ---- the tests */

static void test_life_of_a_chain(void) {
    open_store(4, 9, 9);
    uint64_t root = made(0, 1, 11), child = made(root, 2, UINT64_MAX), leaf = made(child, UINT64_MAX, 0);
    CHECK(root == 1 && child == 2 && leaf == 3);
    CHECK(span_store_keep(&store, child) == SPAN_STORE_OK);
    CHECK(is_found(root, (SpanStoreFound){0, 1, 11, 1, 1}));
    CHECK(is_found(child, (SpanStoreFound){root, 2, UINT64_MAX, 2, 1}));
    CHECK(is_found(leaf, (SpanStoreFound){child, UINT64_MAX, 0, 1, 0}));
    CHECK(has_counts(4, 3));
    CHECK(released(root) == 0 && released(child) == 0 && released(child) == 0);
    CHECK(has_counts(1, 3));
    CHECK(released(leaf) == 1);
    CHECK(ended(leaf) == child);
    CHECK(ended(child) == root);
    CHECK(ended(root) == 0);
    CHECK(has_counts(0, 0));
    /* the slot that was freed last is given first, and each of its ids is new */
    CHECK(made(0, 0, 0) == 16777217);
    close_store();
}

static void test_closing_span(void) {
    uint64_t id = 99;
    open_store(2, 9, 9);
    uint64_t root = made(0, 5, 77), child = made(root, 6, 88);
    CHECK(released(child) == 1);
    CHECK(is_found(child, (SpanStoreFound){root, 6, 88, 0, 0}));
    CHECK(span_store_keep(&store, child) == SPAN_STORE_UNKNOWN);
    CHECK(span_store_add(&store, child, 0, 0, &id) == SPAN_STORE_UNKNOWN);
    CHECK(released(child) == 9);
    CHECK(is_found(child, (SpanStoreFound){root, 6, 88, 0, 0}));
    /* it still holds its parent, and its slot is nobody else's */
    CHECK(released(root) == 0 && ended(root) == 9);
    CHECK(span_store_add(&store, 0, 0, 0, &id) == SPAN_STORE_FULL && id == 99);
    /* the parent may be held again as long as it isn't closing */
    CHECK(span_store_keep(&store, root) == SPAN_STORE_OK);
    CHECK(ended(child) == 0 && ended(child) == 9);
    CHECK(released(root) == 1 && ended(root) == 0);
    close_store();
}

static void test_refusals(void) {
    uint64_t id = 99;
    uint32_t closing = 98;
    open_store(2, 0, 2);
    uint64_t root = made(0, 0, 0), child = made(root, 0, 0);
    CHECK(span_store_keep(&store, root) == SPAN_STORE_COUNT_FULL);
    CHECK(span_store_add(&store, root, 0, 0, &id) == SPAN_STORE_COUNT_FULL);
    CHECK(span_store_add(&store, child, 0, 0, &id) == SPAN_STORE_FULL);
    CHECK(span_store_add(&store, 0, 0, 0, &id) == SPAN_STORE_FULL);
    CHECK(span_store_add(&store, UINT64_MAX, 0, 0, &id) == SPAN_STORE_UNKNOWN);
    CHECK(span_store_ended(&store, root, &id) == SPAN_STORE_UNKNOWN);
    CHECK(id == 99);
    CHECK(released(child) == 1 && ended(child) == 0);
    /* each slot gave its one id: the child's is used no more */
    CHECK(span_store_add(&store, root, 0, 0, &id) == SPAN_STORE_FULL);
    CHECK(released(root) == 1);
    CHECK(span_store_release(&store, root, &closing) == SPAN_STORE_UNKNOWN && closing == 98);
    CHECK(span_store_add(&store, root, 0, 0, &id) == SPAN_STORE_UNKNOWN);
    CHECK(ended(root) == 0);
    CHECK(span_store_ended(&store, root, &id) == SPAN_STORE_UNKNOWN && id == 99);
    CHECK(has_counts(0, 0));
    close_store();
}

static void test_limits(void) {
    CHECK(span_store_new(&store, 0, 0, 1) == SPAN_STORE_BAD_LIMITS);
    CHECK(span_store_new(&store, 16777217, 0, 1) == SPAN_STORE_BAD_LIMITS);
    CHECK(span_store_new(&store, UINT32_MAX, 0, 1) == SPAN_STORE_BAD_LIMITS);
    CHECK(span_store_new(&store, 1, 0, 0) == SPAN_STORE_BAD_LIMITS);
    CHECK(store.at == NULL);
    open_store(1, UINT32_MAX, UINT32_MAX);
    for (uint64_t round = 0; round < 1000; round++) {
        uint64_t id = made(0, round, ~round);
        CHECK(id == round * 16777216 + 1 && is_found(id, (SpanStoreFound){0, round, ~round, 1, 0}));
        CHECK(released(id) == 1 && ended(id) == 0);
    }
    close_store();
    open_store(16777216, 0, 1);
    CHECK(made(0, 0, 0) == 1 && made(0, 0, 0) == 2 && has_counts(2, 2));
    close_store();
}

static void test_handles(void) {
    SpanStoreFound found = {1, 2, 3, 4, 5};
    SpanStoreCounts counts = {6, 7};
    SpanStoreDetails details = {.id = 96};
    size_t len = 97;
    uint64_t id = 99;
    uint32_t closing = 98;
    CHECK(span_store_free(&store) == SPAN_STORE_EMPTY_HANDLE);
    CHECK(span_store_add(&store, 0, 0, 0, &id) == SPAN_STORE_EMPTY_HANDLE);
    CHECK(span_store_add(&store, UINT64_MAX, 0, 0, &id) == SPAN_STORE_EMPTY_HANDLE);
    CHECK(span_store_keep(&store, 1) == SPAN_STORE_EMPTY_HANDLE);
    CHECK(span_store_release(&store, 1, &closing) == SPAN_STORE_EMPTY_HANDLE);
    CHECK(span_store_ended(&store, 1, &id) == SPAN_STORE_EMPTY_HANDLE);
    CHECK(span_store_find(&store, 1, &found) == SPAN_STORE_EMPTY_HANDLE);
    CHECK(span_store_next(&store, 0, &id) == SPAN_STORE_EMPTY_HANDLE);
    CHECK(span_store_counts(&store, &counts) == SPAN_STORE_EMPTY_HANDLE);
    CHECK(span_store_details(&store, &details, 1, &len) == SPAN_STORE_EMPTY_HANDLE && len == 97 && details.id == 96);
    CHECK(id == 99 && closing == 98 && store.at == NULL);
    CHECK(found.parent == 1 && found.bits == 2 && found.word == 3 && found.handles == 4 && found.children == 5);
    CHECK(counts.handles == 6 && counts.spans == 7);
    open_store(1, 1, 1);
    CHECK(span_store_new(&store, 1, 1, 1) == SPAN_STORE_HANDLE_IN_USE);
    CHECK(span_store_new(&store, 0, 0, 0) == SPAN_STORE_HANDLE_IN_USE);
    CHECK(made(0, 0, 0) == 1);
    close_store();
    CHECK(span_store_free(&store) == SPAN_STORE_EMPTY_HANDLE);
}

static void test_walk(void) {
    uint64_t found = 99, spans[6];
    open_store(8, 9, 9);
    CHECK(next(0) == 0 && next(1) == 0);
    for (int i = 0; i < 6; i++)
        spans[i] = made(i == 5 ? spans[4] : 0, 0, (uint64_t)i);
    CHECK(released(spans[0]) == 1 && ended(spans[0]) == 0);
    CHECK(released(spans[2]) == 1 && ended(spans[2]) == 0);
    CHECK(released(spans[3]) == 1);
    uint64_t again = made(0, 0, 9);
    CHECK(again == 16777219);
    /* slots 1 to 5: one that is open, one at its second id, one that is closing, a parent and its child */
    CHECK(next(0) == spans[1] && next(spans[1]) == again && next(again) == spans[3] && next(spans[3]) == spans[4]);
    CHECK(next(spans[4]) == spans[5] && next(spans[5]) == 0);
    /* ids that aren't there any longer, or never were, say where it goes on */
    CHECK(next(spans[0]) == spans[1] && next(spans[2]) == spans[3] && next(8) == 0 && next(UINT64_C(1) << 56) == 0);
    CHECK(next(UINT64_C(16777216) * 77 + 2) == again);
    CHECK(span_store_next(&store, (UINT64_C(1) << 56) + 1, &found) == SPAN_STORE_UNKNOWN);
    CHECK(span_store_next(&store, UINT64_MAX, &found) == SPAN_STORE_UNKNOWN && found == 99);
    CHECK(has_counts(4, 5));
    close_store();
}

static int is_told(const SpanStoreDetails *told, SpanStoreDetails wanted) {
    return told->id == wanted.id && told->parent == wanted.parent && told->word == wanted.word
        && told->handles == wanted.handles && told->children == wanted.children && told->closing == wanted.closing;
}

/* which spans are there, and what holds each */
static void test_details(void) {
    SpanStoreDetails into[4] = {{.id = 91}, {.id = 92}, {.id = 93}, {.id = 94}};
    size_t len = 99;
    open_store(8, 9, 9);
    CHECK(span_store_details(&store, into, 4, &len) == SPAN_STORE_OK && len == 0 && into[0].id == 91);
    uint64_t gone = made(0, 0, 0), root = made(0, 5, 77), child = made(root, 6, UINT64_MAX), leaf = made(child, 7, 99);
    CHECK(span_store_keep(&store, root) == SPAN_STORE_OK && released(gone) == 1 && ended(gone) == 0);
    CHECK(released(child) == 0 && released(leaf) == 1);
    CHECK(span_store_details(&store, into, 2, &len) == SPAN_STORE_SHORT_BUFFER && len == 3 && into[0].id == 91);
    CHECK(span_store_details(&store, into, 0, &len) == SPAN_STORE_SHORT_BUFFER && len == 3);
    CHECK(span_store_details(&store, into, 4, &len) == SPAN_STORE_OK && len == 3);
    CHECK(is_told(&into[0], (SpanStoreDetails){root, 0, 77, 2, 1, 0}));
    /* no handle is left, but a child that is closing: it holds its parent until it ended */
    CHECK(is_told(&into[1], (SpanStoreDetails){child, root, UINT64_MAX, 0, 1, 0}));
    CHECK(is_told(&into[2], (SpanStoreDetails){leaf, child, 99, 0, 0, 1}));
    CHECK(into[3].id == 94);
    CHECK(ended(leaf) == child);
    CHECK(span_store_details(&store, into, 2, &len) == SPAN_STORE_OK && len == 2);
    CHECK(is_told(&into[1], (SpanStoreDetails){child, root, UINT64_MAX, 0, 0, 1}) && into[2].id == leaf);
    CHECK(has_counts(2, 2));
    close_store();
}

/* each allocation of the list is refused in turn: then nothing is written */
static void test_details_without_memory(void) {
    SpanStoreDetails into[2] = {{.id = 91}, {.id = 92}};
    size_t len = 99;
    uint32_t status = SPAN_STORE_OUT_OF_MEMORY;
    open_store(4, 9, 9);
    uint64_t root = made(0, 0, 1), child = made(root, 0, 2);
    for (long allowed = 0; status == SPAN_STORE_OUT_OF_MEMORY && allowed < 9; allowed++) {
        CHECK(len == 99 && into[0].id == 91 && into[1].id == 92);
        allocations_left = allowed;
        status = span_store_details(&store, into, 2, &len);
        allocations_left = -1;
    }
    CHECK(status == SPAN_STORE_OK && len == 2);
    CHECK(is_told(&into[0], (SpanStoreDetails){root, 0, 1, 1, 1, 0}));
    CHECK(is_told(&into[1], (SpanStoreDetails){child, root, 2, 1, 0, 0}));
    close_store();
}

/* words that own memory, and a store that is let go with spans there: the sanitizer and valgrind see a leak */
static void test_words_are_given_back(void) {
    SpanStoreFound found;
    int freed = 0;
    open_store(64, 9, 9);
    uint64_t last = 0;
    for (int i = 0; i < 40; i++) {
        char *word = malloc(16);
        CHECK(word != NULL);
        last = made(i % 4 == 0 ? 0 : last, 0, (uint64_t)(uintptr_t)word);
    }
    CHECK(released(last) == 1);
    for (uint64_t id = 0; span_store_next(&store, id, &id) == SPAN_STORE_OK && id != 0; freed++) {
        CHECK(span_store_find(&store, id, &found) == SPAN_STORE_OK);
        free((void *)(uintptr_t)found.word);
    }
    CHECK(freed == 40);
    close_store();
}

/* memory is asked for in span_store_new and for span_store_details alone */
static void test_refused_memory(void) {
    uint32_t status;
    long allowed = 0;
    do {
        allocations_left = allowed++;
        status = span_store_new(&store, 16, 9, 9);
        CHECK(status == SPAN_STORE_OK || (status == SPAN_STORE_OUT_OF_MEMORY && store.at == NULL));
        CHECK(status == SPAN_STORE_OK || span_store_free(&store) == SPAN_STORE_EMPTY_HANDLE);
    } while (status != SPAN_STORE_OK && allowed < 100);
    CHECK(status == SPAN_STORE_OK && allowed == 4);
    allocations_left = 0;
    uint64_t ids[16];
    for (int i = 0; i < 16; i++)
        ids[i] = made(i == 0 ? 0 : ids[i / 2], 0, 0);
    for (int i = 0; i < 16; i++)
        CHECK(span_store_keep(&store, ids[i]) == SPAN_STORE_OK && released(ids[i]) == 0);
    CHECK(next(0) == ids[0] && has_counts(16, 16));
    for (int i = 15; i >= 0; i--)
        CHECK(released(ids[i]) == 1 && ended(ids[i]) == 0);
    CHECK(has_counts(0, 0));
    CHECK(span_store_free(&store) == SPAN_STORE_OK);
    allocations_left = -1;
}

/* ---- threads that tell outside the lock */

enum { THREADS = 4, ROUNDS = 400, DEPTH = 5 };

/* what a span's word points to */
typedef struct Data {
    struct Data *parent;
    atomic_int told, untold_children;
} Data;

static pthread_mutex_t lock = PTHREAD_MUTEX_INITIALIZER;
static atomic_int faults, ends;

static uint64_t add_span(uint64_t above, Data *parent, Data **data) {
    uint64_t id = 0;
    *data = calloc(1, sizeof **data);
    (*data)->parent = parent;
    if (parent != NULL)
        atomic_fetch_add(&parent->untold_children, 1);
    pthread_mutex_lock(&lock);
    uint32_t status = span_store_add(&store, above, 0, (uint64_t)(uintptr_t)*data, &id);
    pthread_mutex_unlock(&lock);
    atomic_fetch_add(&faults, status != SPAN_STORE_OK);
    return id;
}

/* tells of a span that is closing, and of each of its parents that is then */
static void tell(uint64_t id) {
    while (id != 0) {
        SpanStoreFound found = {0};
        uint64_t parent = 0;
        pthread_mutex_lock(&lock);
        uint32_t status = span_store_find(&store, id, &found);
        pthread_mutex_unlock(&lock);
        Data *data = (Data *)(uintptr_t)found.word;
        int good = status == SPAN_STORE_OK && atomic_fetch_add(&data->told, 1) == 0
            && atomic_load(&data->untold_children) == 0;
        atomic_fetch_add(&faults, !good);
        if (data->parent != NULL)
            atomic_fetch_sub(&data->parent->untold_children, 1);
        pthread_mutex_lock(&lock);
        status = span_store_ended(&store, id, &parent);
        pthread_mutex_unlock(&lock);
        atomic_fetch_add(&faults, status != SPAN_STORE_OK);
        atomic_fetch_add(&ends, 1);
        free(data);
        id = parent;
    }
}

static void give_back(uint64_t id) {
    uint32_t closing = 0;
    pthread_mutex_lock(&lock);
    uint32_t status = span_store_release(&store, id, &closing);
    pthread_mutex_unlock(&lock);
    atomic_fetch_add(&faults, status != SPAN_STORE_OK);
    if (closing)
        tell(id);
}

static uint64_t shared_root;
static Data *shared_data;

/* chains under a root of all threads, whose handles are given back in different orders */
static void *make_chains(void *number) {
    unsigned seed = (unsigned)(uintptr_t)number;
    for (int round = 0; round < ROUNDS; round++) {
        uint64_t ids[DEPTH];
        Data *data[DEPTH];
        for (int i = 0; i < DEPTH; i++)
            ids[i] = add_span(i == 0 ? shared_root : ids[i - 1], i == 0 ? shared_data : data[i - 1], &data[i]);
        for (int left = DEPTH; left > 0; left--) {
            int which = (int)((unsigned)rand_r(&seed) % (unsigned)left);
            give_back(ids[which]);
            ids[which] = ids[left - 1];
        }
    }
    return NULL;
}

static void test_threads(void) {
    pthread_t threads[THREADS];
    open_store(64, UINT32_MAX, UINT32_MAX);
    shared_root = add_span(0, NULL, &shared_data);
    for (uintptr_t i = 0; i < THREADS; i++)
        CHECK(pthread_create(&threads[i], NULL, make_chains, (void *)(i + 1)) == 0);
    for (int i = 0; i < THREADS; i++)
        CHECK(pthread_join(threads[i], NULL) == 0);
    CHECK(atomic_load(&ends) == THREADS * ROUNDS * DEPTH && has_counts(1, 1));
    give_back(shared_root);
    CHECK(atomic_load(&faults) == 0 && has_counts(0, 0));
    close_store();
}

int main(void) {
    CHECK(span_store_abi_version() == SPAN_STORE_ABI_VERSION);
    test_life_of_a_chain();
    test_closing_span();
    test_refusals();
    test_limits();
    test_handles();
    test_walk();
    test_details();
    test_details_without_memory();
    test_words_are_given_back();
    test_refused_memory();
    test_threads();
    printf("%d passed, %d failed\n", passed, failed);
    return failed == 0 ? EXIT_SUCCESS : EXIT_FAILURE;
}
