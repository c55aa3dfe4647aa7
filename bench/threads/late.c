// Threads that wait at random, for LD_PRELOAD: each before it begins, and each before it asks the system for anything
// by number, which is how it waits for its turn. It counts up to a number from 0 to 4,095; at times it lets others go,
// or sleeps for up to 255 us. The numbers differ from call to call.
#define _GNU_SOURCE
#include <dlfcn.h>
#include <pthread.h>
#include <sched.h>
#include <stdarg.h>
#include <stdint.h>
#include <stdlib.h>
#include <time.h>
#include <unistd.h>

struct work {
  void *(*does)(void *);
  void *with;
};

static int (*real_create)(pthread_t *, const pthread_attr_t *, void *(*)(void *), void *);
static long (*real_syscall)(long, ...);
static uint64_t state;

__attribute__((constructor)) static void begin(void) {
  struct timespec now;
  real_create = dlsym(RTLD_NEXT, "pthread_create");
  real_syscall = dlsym(RTLD_NEXT, "syscall");
  clock_gettime(CLOCK_MONOTONIC, &now);
  state = (uint64_t)now.tv_nsec * 1000003 + getpid();
}

static uint64_t drawn(void) {
  uint64_t x = __atomic_add_fetch(&state, 0x9E3779B97F4A7C15, __ATOMIC_SEQ_CST);
  x = (x ^ (x >> 30)) * 0xBF58476D1CE4E5B9;
  x = (x ^ (x >> 27)) * 0x94D049BB133111EB;
  return x ^ (x >> 31);
}

static void wait_at_random(void) {
  uint64_t x = drawn();
  for (volatile uint64_t turns = x & 4095; turns > 0; turns--);
  if ((x >> 20 & 7) == 0) sched_yield();
  if ((x >> 24 & 31) == 0) usleep(x >> 32 & 255);
}

static void *late(void *given) {
  struct work work = *(struct work *)given;
  free(given);
  wait_at_random();
  return work.does(work.with);
}

int pthread_create(pthread_t *thread, const pthread_attr_t *how, void *(*does)(void *), void *with) {
  struct work *work = malloc(sizeof *work);
  if (!work) return 11;
  work->does = does;
  work->with = with;
  int status = real_create(thread, how, late, work);
  if (status) free(work);
  wait_at_random();
  return status;
}

long syscall(long number, ...) {
  long a[6];
  va_list rest;
  va_start(rest, number);
  for (int i = 0; i < 6; i++) a[i] = va_arg(rest, long);
  va_end(rest);
  wait_at_random();
  return real_syscall(number, a[0], a[1], a[2], a[3], a[4], a[5]);
}
