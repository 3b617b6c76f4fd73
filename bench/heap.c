/* Counts a program's heap where it is loaded before it (LD_PRELOAD). On standard error at the end: how many calls took a block
 * anew, how many made one larger, and the most bytes that were held at once. */
#define _GNU_SOURCE
#include <dlfcn.h>
#include <malloc.h>
#include <stdio.h>
#include <stdlib.h>

static void *(*take)(size_t), *(*clean)(size_t, size_t), *(*grow)(void *, size_t);
static void (*give)(void *);
static size_t news, growths, held, peak;

static void
find(void)
{
  if (take) return;
  take = (void *(*)(size_t)) dlsym(RTLD_NEXT, "malloc");
  clean = (void *(*)(size_t, size_t)) dlsym(RTLD_NEXT, "calloc");
  grow = (void *(*)(void *, size_t)) dlsym(RTLD_NEXT, "realloc");
  give = (void (*)(void *)) dlsym(RTLD_NEXT, "free");
}

static void *
note(void *block)
{
  held += block ? malloc_usable_size(block) : 0;
  if (peak < held) peak = held;
  return block;
}

void *malloc(size_t n) { find(); news++; return note(take(n)); }

void *
calloc(size_t n, size_t m)
{
  find();
  news++;
  return note(clean(n, m));
}

void *
realloc(void *old, size_t n)
{
  find();
  growths++;
  size_t before = old ? malloc_usable_size(old) : 0;
  void *block = grow(old, n);
  if (!block) return NULL;
  held -= before;
  return note(block);
}

void
free(void *old)
{
  find();
  held -= old ? malloc_usable_size(old) : 0;
  give(old);
}

__attribute__((destructor)) static void said(void) { fprintf(stderr, "heap %zu %zu %zu\n", news, growths, peak); }
