/* Calls of the store, for who counts the instructions of each (bench/instructions.py): spans are added under one parent,
 * found, given back and ended; or, with a word, kept and given back. */
#include <inttypes.h>
#include <stdio.h>
#include <stdlib.h>

#include "span_store.h"

enum { SPANS = 10000 };

static void need(uint32_t status) {
    if (status != SPAN_STORE_OK) {
        fprintf(stderr, "store: status %" PRIu32 "\n", status);
        exit(1);
    }
}

int main(int words, char **unused) {
    static uint64_t ids[SPANS];
    SpanStore store = {NULL};
    SpanStoreFound found;
    uint64_t root, parent;
    uint32_t closing;
    (void)unused;
    need(span_store_new(&store, SPANS + 1, 1, UINT32_MAX));
    need(span_store_add(&store, 0, 0, 0, &root));
    for (int at = 0; at < SPANS; at++)
        need(span_store_add(&store, root, 0, 0, &ids[at]));
    for (int at = 0; at < SPANS && words > 1; at++) {
        need(span_store_keep(&store, ids[at]));
        need(span_store_release(&store, ids[at], &closing));
    }
    for (int at = 0; at < SPANS && words == 1; at++) {
        need(span_store_find(&store, ids[at], &found));
        need(span_store_release(&store, ids[at], &closing));
        need(span_store_ended(&store, ids[at], &parent));
    }
    need(span_store_free(&store));
    return 0;
}
