/* Loaded before the C library, this refuses growths of a program: its allocations, and the threads that it makes. The
   number of the first stands in REFUSE, from 1; with 0 none is refused. With REST=1 all growths after it are refused too.

   With MARKED=1 growths are counted and refused only inside calls: the program writes the line `. call` to standard
   output before a call, and `. over` after it. The rest of REST then ends with the call. Between `. no memory` and
   `. over` each growth is refused, whatever its number.

   For each growth refused a byte goes to the descriptor 9: `x`, and between `. no memory` and `. over` `n`. It names what
   it calls itself, so that it needs no header. */
extern void *dlsym(void *, const char *);
extern char *getenv(const char *);
extern long atol(const char *);
extern void abort(void);

#define NEXT ((void *)-1L)
#define TRY_AGAIN 11

enum { OUTSIDE, CALL, NO_MEMORY };

static long left;
static int rest, marked, place, refusing;

static long next_write(int file, const void *bytes, unsigned long count)
{
    static long (*next)(int, const void *, unsigned long);
    if (!next)
        next = (long (*)(int, const void *, unsigned long))dlsym(NEXT, "write");
    return next(file, bytes, count);
}

static long number_of(const char *name)
{
    const char *number = getenv(name);
    return number ? atol(number) : 0;
}

__attribute__((constructor)) static void begin(void)
{
    left = number_of("REFUSE");
    rest = number_of("REST") != 0;
    marked = number_of("MARKED") != 0;
    place = marked ? OUTSIDE : CALL;
}

static int refuse(const char *kind)
{
    if (next_write(9, kind, 1) < 0)
        abort();
    return 1;
}

/* Other threads of the program may ask at the same time. */
static int is_refused(void)
{
    if (place == OUTSIDE)
        return 0;
    if (place == NO_MEMORY)
        return refuse("n");
    if (__atomic_load_n(&refusing, __ATOMIC_SEQ_CST))
        return refuse("x");
    if (__atomic_sub_fetch(&left, 1, __ATOMIC_SEQ_CST) != 0)
        return 0;
    __atomic_store_n(&refusing, rest, __ATOMIC_SEQ_CST);
    return refuse("x");
}

static int begins_with(const char *bytes, unsigned long count, const char *mark)
{
    for (; *mark; bytes++, mark++, count--)
        if (count == 0 || *bytes != *mark)
            return 0;
    return 1;
}

long write(int file, const void *bytes, unsigned long count)
{
    if (marked && file == 1) {
        if (begins_with(bytes, count, ". call"))
            place = CALL;
        else if (begins_with(bytes, count, ". no memory"))
            place = NO_MEMORY;
        else if (begins_with(bytes, count, ". over"))
            place = refusing = OUTSIDE;
    }
    return next_write(file, bytes, count);
}

void *malloc(unsigned long size)
{
    static void *(*next)(unsigned long);
    if (!next)
        next = (void *(*)(unsigned long))dlsym(NEXT, "malloc");
    return is_refused() ? 0 : next(size);
}

void *realloc(void *block, unsigned long size)
{
    static void *(*next)(void *, unsigned long);
    if (!next)
        next = (void *(*)(void *, unsigned long))dlsym(NEXT, "realloc");
    return is_refused() ? 0 : next(block, size);
}

int pthread_create(void *thread, const void *attributes, void *(*run)(void *), void *given)
{
    static int (*next)(void *, const void *, void *(*)(void *), void *);
    if (!next)
        next = (int (*)(void *, const void *, void *(*)(void *), void *))dlsym(NEXT, "pthread_create");
    return is_refused() ? TRY_AGAIN : next(thread, attributes, run, given);
}
