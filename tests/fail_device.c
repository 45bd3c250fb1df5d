/* Loaded before the C library, this makes calls of read(2) on standard input and write(2) on standard output fail, be
   interrupted or move one byte alone: FAIL and INTERRUPT name the call, from 1, as `read 2` or `write 1`, SHORT names
   the device. For each call `r` or `w` goes to the descriptor 9. It names what it calls itself, so that it needs no
   header. */
extern void *dlsym(void *, const char *);
extern char *getenv(const char *);
extern long atol(const char *);
extern int strncmp(const char *, const char *, unsigned long);
extern void abort(void);
extern int *__errno_location(void);

#define NEXT ((void *)-1L)
#define INTERRUPTED 4
#define FAILED 5

typedef long (*reading)(int, void *, unsigned long);
typedef long (*writing)(int, const void *, unsigned long);

#define NOTICE 9

static long reads, writes;
static writing next_write;

static int is_named(const char *variable, const char *device, unsigned long length, long number)
{
    const char *value = getenv(variable);
    if (!value || strncmp(value, device, length) != 0)
        return 0;
    return value[length] == 0 || atol(value + length) == number;
}

/* Whether the call goes on; how many bytes it moves at most. */
static int goes_on(const char *device, unsigned long length, long number, unsigned long *count)
{
    if (!next_write)
        next_write = (writing)dlsym(NEXT, "write");
    if (next_write(NOTICE, device, 1) < 0)
        abort();
    if (is_named("FAIL", device, length, number)) {
        *__errno_location() = FAILED;
        return 0;
    }
    if (is_named("INTERRUPT", device, length, number)) {
        *__errno_location() = INTERRUPTED;
        return 0;
    }
    if (*count > 1 && is_named("SHORT", device, length, number))
        *count = 1;
    return 1;
}

long read(int file, void *into, unsigned long count)
{
    static reading next;
    if (!next)
        next = (reading)dlsym(NEXT, "read");
    if (file == 0 && !goes_on("read", 4, ++reads, &count))
        return -1;
    return next(file, into, count);
}

long write(int file, const void *from, unsigned long count)
{
    if (!next_write)
        next_write = (writing)dlsym(NEXT, "write");
    if (file == 1 && !goes_on("write", 5, ++writes, &count))
        return -1;
    return next_write(file, from, count);
}
