/* What a round over the C interface costs, without a lock: a new span, an enter, an exit and a close, with 0, 1 and 8
 * compact layers, by ids and at a callsite, without a field and with one. The best turn counts, since others share the
 * processor. A line each: layers, fields, 1 where at a callsite, nanoseconds of a round, and of reading its lines. */
#include <stdio.h>
#include <stdlib.h>
#include <time.h>

#include "span_registry.h"

enum { ROUNDS = 250, TURNS = 800, RING = 1024, MOST_LAYERS = 8 };

static const char META_TEXTS[] = "requestapp::module";
static const char FIELD_TEXTS[] = "kvalue";
static const char ALL_TEXTS[] = "requestapp::modulekvalue";
static const SpanMeta META = {2, 7, 11};
static const SpanField FIELD = {1, 5};

/* What is run: how many layers and fields, and whether the span is made at a callsite. */
typedef struct Kind {
    size_t layers, fields;
    int at_callsite;
} Kind;

static void need(uint32_t status) {
    if (status != SPAN_OK) {
        fprintf(stderr, "border: status %u\n", status);
        exit(1);
    }
}

static void open_registry(SpanRegistry *registry, SpanDrain *drain, size_t layers_len) {
    const SpanLimits limits = {1024, UINT32_MAX, UINT32_MAX, 1, RING};
    SpanLayer layers[MOST_LAYERS];
    SpanRule rules[MOST_LAYERS];
    for (size_t layer = 0; layer < layers_len; layer++) {
        layers[layer] = (SpanLayer){0, 15, 1};
        rules[layer] = (SpanRule){0, 4};
    }
    need(span_registry_new(registry, drain, &limits, layers, layers_len, rules, layers_len, NULL, 0));
}

static uint64_t new_span(SpanRegistry *registry, Kind kind) {
    const uint8_t *texts = (const uint8_t *)(kind.at_callsite ? FIELD_TEXTS : ALL_TEXTS);
    size_t len = kind.at_callsite ? 0 : sizeof META_TEXTS - 1;
    uint64_t id;
    if (kind.fields)
        len += sizeof FIELD_TEXTS - 1;
    if (kind.at_callsite)
        need(span_registry_new_span_at(registry, 0, SPAN_CURRENT, 0, 0, &FIELD, kind.fields, texts, len, &id));
    else
        need(span_registry_new_span(registry, 0, SPAN_CURRENT, 0, &META, &FIELD, kind.fields, texts, len, &id));
    return id;
}

static void rounds(SpanRegistry *registry, Kind kind) {
    for (int round = 0; round < ROUNDS; round++) {
        uint32_t first, closed;
        uint64_t id = new_span(registry, kind);
        need(span_registry_enter(registry, 0, id, &first));
        need(span_registry_exit(registry, 0, id, &closed));
        need(span_registry_try_close(registry, 0, id, &closed));
    }
}

static void read_lines(SpanDrain *drain) {
    uint8_t line[256];
    uint32_t layer, status;
    size_t len;
    do
        status = span_drain_line(drain, &layer, line, sizeof line, &len);
    while (status == SPAN_OK);
    if (status != SPAN_NO_LINE)
        need(status);
}

static double now(void) {
    struct timespec time;
    clock_gettime(CLOCK_MONOTONIC, &time);
    return (double)time.tv_sec * 1e9 + (double)time.tv_nsec;
}

static void measure(Kind kind) {
    SpanRegistry registry = {NULL};
    SpanDrain drain = {NULL};
    uint32_t number;
    double round = 1e18, reading = 1e18;
    open_registry(&registry, &drain, kind.layers);
    need(span_registry_add_callsite(&registry, &META, (const uint8_t *)META_TEXTS, sizeof META_TEXTS - 1, &number));
    for (int turn = 0; turn < TURNS; turn++) {
        double start = now(), middle, end;
        rounds(&registry, kind);
        middle = now();
        read_lines(&drain);
        end = now();
        if (middle - start < round)
            round = middle - start;
        if (end - middle < reading)
            reading = end - middle;
    }
    need(span_registry_free(&registry));
    need(span_drain_free(&drain));
    printf("%zu %zu %d %.0f %.0f\n", kind.layers, kind.fields, kind.at_callsite, round / ROUNDS, reading / ROUNDS);
}

int main(void) {
    const size_t layers[] = {0, 1, MOST_LAYERS};
    for (size_t at = 0; at < sizeof layers / sizeof *layers; at++)
        for (size_t fields = 0; fields < 2; fields++)
            for (int at_callsite = 0; at_callsite < 2; at_callsite++)
                measure((Kind){layers[at], fields, at_callsite});
    return 0;
}
