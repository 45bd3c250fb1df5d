/* What the C programs of the tests count, and memory that is refused to them. A program that includes it is linked with
 * --wrap=malloc and --wrap=realloc. */
#ifndef CHECKS_H
#define CHECKS_H

#include <stddef.h>
#include <stdio.h>

static int passed, failed;

static void check(int good, const char *what, int line) {
    if (good) {
        passed++;
    } else {
        failed++;
        printf("line %d: %s\n", line, what);
    }
}

#define CHECK(condition) check((condition) ? 1 : 0, #condition, __LINE__)

/* ---- memory that is refused after so many allocations; below 0: never */

static long allocations_left = -1;

void *__real_malloc(size_t size);
void *__real_realloc(void *old, size_t size);
void *__wrap_malloc(size_t size);
void *__wrap_realloc(void *old, size_t size);

static int is_refused(void) {
    if (allocations_left < 0)
        return 0;
    if (allocations_left == 0)
        return 1;
    allocations_left--;
    return 0;
}

void *__wrap_malloc(size_t size) {
    return is_refused() ? NULL : __real_malloc(size);
}

void *__wrap_realloc(void *old, size_t size) {
    return is_refused() ? NULL : __real_realloc(old, size);
}

#endif
