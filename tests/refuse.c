/*
 * Loaded before a program, refuses one growth of its memory: the one whose number, counted from 1, stands
 * in REFUSED_GROWTH. All others go to the C library. A growth is a call that asks for memory; before the
 * loader has called `begin` none counts. If COUNTED_GROWTHS names a file, their number is written to it
 * as the program ends.
 *
 * In the same way one of its calls of `read` fails, with EIO, by REFUSED_READ, and one of `write` by
 * REFUSED_WRITE. COUNTED_READS and COUNTED_WRITES name files for their numbers.
 */
#define _GNU_SOURCE
#include <dlfcn.h>
#include <errno.h>
#include <stdio.h>
#include <stdlib.h>
#include <unistd.h>

/* Calls of one kind: the variables that say which one is refused and where they are counted. */
struct calls {
    const char *refused_by, *counted_in;
    unsigned long refused, count;
};

static struct calls growths = {"REFUSED_GROWTH", "COUNTED_GROWTHS"};
static struct calls reads = {"REFUSED_READ", "COUNTED_READS"};
static struct calls writes = {"REFUSED_WRITE", "COUNTED_WRITES"};

static void *(*c_malloc)(size_t);
static void *(*c_calloc)(size_t, size_t);
static void *(*c_realloc)(void *, size_t);
static void *(*c_aligned_alloc)(size_t, size_t);
static int (*c_posix_memalign)(void **, size_t, size_t);

static ssize_t (*c_read)(int, void *, size_t);
static ssize_t (*c_write)(int, const void *, size_t);

static void begin_counting(struct calls *calls)
{
    const char *number = getenv(calls->refused_by);
    calls->refused = number ? strtoul(number, NULL, 10) : 0;
    calls->count = 0;
}

__attribute__((constructor)) static void begin(void)
{
    c_malloc = dlsym(RTLD_NEXT, "malloc");
    c_calloc = dlsym(RTLD_NEXT, "calloc");
    c_realloc = dlsym(RTLD_NEXT, "realloc");
    c_aligned_alloc = dlsym(RTLD_NEXT, "aligned_alloc");
    c_posix_memalign = dlsym(RTLD_NEXT, "posix_memalign");
    c_read = dlsym(RTLD_NEXT, "read");
    c_write = dlsym(RTLD_NEXT, "write");
    begin_counting(&growths);
    begin_counting(&reads);
    begin_counting(&writes);
}

static void say(const char *name, unsigned long count)
{
    FILE *file = name ? fopen(name, "w") : NULL;
    if (file) {
        fprintf(file, "%lu\n", count);
        fclose(file);
    }
}

__attribute__((destructor)) static void end(void)
{
    unsigned long grown = growths.count, read = reads.count, written = writes.count;
    growths.refused = writes.refused = 0; /* what the files ask for is never refused */
    say(getenv(growths.counted_in), grown);
    say(getenv(reads.counted_in), read);
    say(getenv(writes.counted_in), written);
}

static int is_refused(struct calls *calls, int error)
{
    if (++calls->count != calls->refused)
        return 0;
    errno = error;
    return 1;
}

void *malloc(size_t size)
{
    return !c_malloc || is_refused(&growths, ENOMEM) ? NULL : c_malloc(size);
}

void *calloc(size_t count, size_t size)
{
    return !c_calloc || is_refused(&growths, ENOMEM) ? NULL : c_calloc(count, size);
}

void *realloc(void *block, size_t size)
{
    return !c_realloc || is_refused(&growths, ENOMEM) ? NULL : c_realloc(block, size);
}

void *aligned_alloc(size_t alignment, size_t size)
{
    return !c_aligned_alloc || is_refused(&growths, ENOMEM) ? NULL : c_aligned_alloc(alignment, size);
}

int posix_memalign(void **block, size_t alignment, size_t size)
{
    return !c_posix_memalign || is_refused(&growths, ENOMEM) ? ENOMEM : c_posix_memalign(block, alignment, size);
}

ssize_t read(int file, void *to, size_t size)
{
    return !c_read || is_refused(&reads, EIO) ? -1 : c_read(file, to, size);
}

ssize_t write(int file, const void *from, size_t size)
{
    return !c_write || is_refused(&writes, EIO) ? -1 : c_write(file, from, size);
}
