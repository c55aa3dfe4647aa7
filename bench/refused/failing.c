// An allocator for LD_PRELOAD that refuses the allocation whose number FAIL_AT gives, from 1, and says so by a byte to
// the file descriptor that SAY_TO gives.
#define _GNU_SOURCE
#include <dlfcn.h>
#include <errno.h>
#include <stdlib.h>
#include <unistd.h>

static void *(*real_malloc)(size_t);
static void *(*real_calloc)(size_t, size_t);
static void *(*real_realloc)(void *, size_t);
static void *(*real_aligned)(size_t, size_t);
static int (*real_memalign)(void **, size_t, size_t);
static unsigned long refused_at, count;
static int is_ready, say_to = -1;

__attribute__((constructor)) static void begin(void) {
  if (is_ready) return;
  real_malloc = dlsym(RTLD_NEXT, "malloc");
  real_calloc = dlsym(RTLD_NEXT, "calloc");
  real_realloc = dlsym(RTLD_NEXT, "realloc");
  real_aligned = dlsym(RTLD_NEXT, "aligned_alloc");
  real_memalign = dlsym(RTLD_NEXT, "posix_memalign");
  const char *at = getenv("FAIL_AT");
  refused_at = at ? strtoul(at, NULL, 10) : 0;
  const char *to = getenv("SAY_TO");
  say_to = to ? atoi(to) : -1;
  is_ready = 1;
}

// Whether this allocation is refused.
static int refuses(void) {
  if (!is_ready) begin();
  if (__sync_add_and_fetch(&count, 1) != refused_at) return 0;
  if (write(say_to, "x", 1) != 1) abort();
  errno = ENOMEM;
  return 1;
}

void *malloc(size_t size) { return refuses() ? NULL : real_malloc(size); }

void *calloc(size_t many, size_t size) {
  // dlsym itself asks for memory before there is an allocator.
  static char early[4096];
  static size_t used;
  if (!real_calloc) {
    size_t at = used;
    used += (many * size + 15) / 16 * 16;
    return used <= sizeof early ? early + at : NULL;
  }
  return refuses() ? NULL : real_calloc(many, size);
}

void *realloc(void *old, size_t size) { return refuses() ? NULL : real_realloc(old, size); }

void *aligned_alloc(size_t step, size_t size) { return refuses() ? NULL : real_aligned(step, size); }

int posix_memalign(void **found, size_t step, size_t size) {
  return refuses() ? ENOMEM : real_memalign(found, step, size);
}
