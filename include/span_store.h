/* A store of spans that close in two steps, proved: the C interface of the library span_store_ffi. It is what stands
 * under a registry of spans, as Rust's `tracing` has one, whose layers are called outside its lock.
 *
 * A span is held by its handles and by the spans that are there whose parent it is. Where nothing holds it any longer,
 * it is closing: it stays there, with its word and its hold of its parent, but nobody can hold it again, and its slot
 * is nobody else's. span_store_release and span_store_ended tell that a span is closing, once for each span, and
 * span_store_ended is then to be called for it once, when the last who wants to know of it was told. That frees its
 * slot, and tells its parent where that is closing now. So no span is told before all its children ended, whatever the
 * threads do; and nothing is there where nothing is held and no end is owed.
 *
 * Every call answers a status, and SPAN_STORE_OK alone means that it was done. Any other status left the store and
 * every output as they were, but for what is said of it here. What a pointer points to has to be there: no pointer may
 * be NULL, and no output may overlap another output or a handle. Between calls on one store in two threads stands a
 * lock, a start or join, or the like: calls that only ask are no exception. No call may come from a signal handler. The
 * library takes its memory by malloc in span_store_new, and gives it back by free in span_store_free.
 * span_store_details takes some, which it has given back when it ends; no other call takes any. */
#ifndef SPAN_STORE_H
#define SPAN_STORE_H

#include <stddef.h>
#include <stdint.h>

#ifdef __cplusplus
extern "C" {
#endif

/* A store without a lock: one call at a time. It may move between threads. {NULL} is empty. Not to be copied. */
typedef struct SpanStore {
    void *at;
} SpanStore;

enum {
    SPAN_STORE_OK = 0,
    SPAN_STORE_UNKNOWN = 1,       /* no span has the id that may be used so: as each call says */
    SPAN_STORE_COUNT_FULL = 2,    /* as many hold the span as may */
    SPAN_STORE_FULL = 3,          /* no slot is free */
    SPAN_STORE_BAD_LIMITS = 8,    /* a limit is outside its range */
    SPAN_STORE_OUT_OF_MEMORY = 10,
    SPAN_STORE_EMPTY_HANDLE = 12,
    SPAN_STORE_HANDLE_IN_USE = 13, /* a handle that was to be filled isn't empty */
    SPAN_STORE_SHORT_BUFFER = 16  /* the list is longer than the buffer: how long it is was told */
};

/* An id is a number from 1 to 2^56, and no two spans of a store ever have the same. parent 0: a root; bits and word:
 * what the span was made with; handles, children: how many hold it. */
typedef struct SpanStoreFound {
    uint64_t parent, bits, word;
    uint32_t handles, children;
} SpanStoreFound;

/* What is told of a span that is there. children: how many spans that are there have it for their parent; closing: 1
 * where nothing holds it any longer, and its end wasn't told yet, else 0. */
typedef struct SpanStoreDetails {
    uint64_t id, parent, word;
    uint32_t handles, children, closing;
} SpanStoreDetails;

/* handles: those of all spans; spans: how many are there, the closing ones among them */
typedef struct SpanStoreCounts {
    uint64_t handles;
    uint32_t spans;
} SpanStoreCounts;

/* The version of this interface that the program was built for, and the one that the library has. They rise where a
 * program that was built for an earlier one would go wrong. */
#define SPAN_STORE_ABI_VERSION 2
uint32_t span_store_abi_version(void);

/* Fills an empty handle with a store that has no span. slots, 1 to 2^24: how many spans may be there at once; all are
 * asked for here, 60 bytes each, and touched only where they are used. last_generation: how often each slot may be
 * given again, after which it is used no more. max_count, from 1: how many handles and children may hold a span.
 * Refused in this order: SPAN_STORE_HANDLE_IN_USE, SPAN_STORE_BAD_LIMITS, SPAN_STORE_OUT_OF_MEMORY. */
uint32_t span_store_new(SpanStore *store, uint32_t slots, uint32_t last_generation, uint32_t max_count);

/* Gives the memory back, and the handle is empty. What the words of spans that are still there stand for is the
 * caller's: span_store_next goes over them. */
uint32_t span_store_free(SpanStore *store);

/* Every call from here on is refused with SPAN_STORE_EMPTY_HANDLE where the handle is empty, before all else, and those
 * with an id, but span_store_next, with SPAN_STORE_UNKNOWN where the number is no id, or the id of a span that ended
 * or never was. */

/* A span with one handle, under a parent, which it holds until it ended, or under none where that is 0. bits and word
 * are the caller's, and stay as they are. Writes its id.
 * Refused in this order: SPAN_STORE_UNKNOWN where the parent isn't there or is closing, SPAN_STORE_COUNT_FULL where
 * max_count hold it, SPAN_STORE_FULL. */
uint32_t span_store_add(SpanStore *store, uint64_t parent, uint64_t bits, uint64_t word, uint64_t *id);

/* One more handle. Refused in this order: SPAN_STORE_UNKNOWN where the span isn't there or is closing,
 * SPAN_STORE_COUNT_FULL where max_count hold it. */
uint32_t span_store_keep(SpanStore *store, uint64_t id);

/* Gives a handle back. Writes closing: 1 where the span is closing now, whose end is to be told then, else 0.
 * SPAN_STORE_UNKNOWN where the span has no handle. */
uint32_t span_store_release(SpanStore *store, uint64_t id, uint32_t *closing);

/* The end of a closing span, which is there no more. Writes parent: the id of its parent where that is closing now,
 * whose end is to be told then, else 0.
 * SPAN_STORE_UNKNOWN where the span isn't closing. */
uint32_t span_store_ended(SpanStore *store, uint64_t id, uint64_t *parent);

/* What is known of a span that is there, closing or not. SPAN_STORE_UNKNOWN where it isn't there. */
uint32_t span_store_find(SpanStore *store, uint64_t id, SpanStoreFound *found);

/* A walk over the spans that are there, closing or not: writes the id of the one that comes next after this id, or of
 * the first one where that is 0; 0 where there is none. They come by their slots, so the id itself needn't be there any
 * longer, and each span that is there throughout comes once. A whole walk looks once at each slot that was ever used.
 * SPAN_STORE_UNKNOWN where the number is neither 0 nor an id. */
uint32_t span_store_next(SpanStore *store, uint64_t id, uint64_t *next);

/* All spans that are there, closing or not, and what holds each, by ascending slot, written to the beginning of a
 * buffer that has room for into_len of them, and that is there also where that is 0. len: how many they are, also where
 * they are more than that; then nothing is written (SPAN_STORE_SHORT_BUFFER). It looks once at each slot that was ever
 * used. SPAN_STORE_OUT_OF_MEMORY where there is none. */
uint32_t span_store_details(SpanStore *store, SpanStoreDetails *into, size_t into_len, size_t *len);

uint32_t span_store_counts(SpanStore *store, SpanStoreCounts *counts);

#ifdef __cplusplus
}
#endif

#endif
