/* Loaded before the C library, this counts the bytes that a program has taken and not given back. The file that
   COUNTS names begins with two numbers of 8 bytes: how many there are now, and the most that there were. It names what
   it calls itself, so that it needs no header. */
extern void *dlsym(void *, const char *);
extern char *getenv(const char *);
extern int open(const char *, int, ...);
extern void *mmap(void *, unsigned long, int, int, int, long);
extern unsigned long malloc_usable_size(void *);
extern void abort(void);

#define NEXT ((void *)-1L)
#define FAILED ((void *)-1L)
#define READ_WRITE 2
#define READABLE_WRITABLE 3
#define SHARED 1

struct counts {
    long now, most;
};

/* Here counts what is taken before the file is open. */
static struct counts early, *counts = &early;

__attribute__((constructor)) static void begin(void)
{
    const char *name = getenv("COUNTS");
    int file = name ? open(name, READ_WRITE) : -1;
    void *at = file < 0 ? FAILED : mmap(0, sizeof(struct counts), READABLE_WRITABLE, SHARED, file, 0);
    if (at == FAILED)
        abort();
    *(struct counts *)at = early;
    counts = at;
}

static void add(long bytes)
{
    long now = __atomic_add_fetch(&counts->now, bytes, __ATOMIC_RELAXED);
    long most = __atomic_load_n(&counts->most, __ATOMIC_RELAXED);
    while (now > most)
        if (__atomic_compare_exchange_n(&counts->most, &most, now, 0, __ATOMIC_RELAXED, __ATOMIC_RELAXED))
            return;
}

static long size(void *at)
{
    return at ? (long)malloc_usable_size(at) : 0;
}

void *malloc(unsigned long bytes)
{
    static void *(*next)(unsigned long);
    if (!next)
        next = (void *(*)(unsigned long))dlsym(NEXT, "malloc");
    void *at = next(bytes);
    add(size(at));
    return at;
}

void *realloc(void *before, unsigned long bytes)
{
    static void *(*next)(void *, unsigned long);
    if (!next)
        next = (void *(*)(void *, unsigned long))dlsym(NEXT, "realloc");
    long had = size(before);
    void *at = next(before, bytes);
    if (at || !bytes)
        add(size(at) - had);
    return at;
}

void free(void *at)
{
    static void (*next)(void *);
    if (!next)
        next = (void (*)(void *))dlsym(NEXT, "free");
    add(-size(at));
    next(at);
}
