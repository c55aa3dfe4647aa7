/* Random access with a check that undoes it: updates go to places all over a table, and each is an exclusive or with a
   number, so that the same updates once more give back what was there. Each update is made under the lock of the
   thread that has the entry (UPC 7.2.4): without one, updates of two threads might be lost. On T threads about T - 1
   of T updates are far: that is what the kernel is for. */
#include <upc_relaxed.h>
#include <stdio.h>

#define ENTRIES 64
#define UPDATES 256

shared unsigned long entry[ENTRIES];
upc_lock_t *shared guard[THREADS];

/* The number of an update: a generator that needs not the one before it. */
unsigned long number(unsigned long i) {
  unsigned long x = (i + 1) * 0x9e3779b97f4a7c15u;
  x = (x ^ x >> 30) * 0xbf58476d1ce4e5b9u;
  return x ^ x >> 27;
}

void update_all(void) {
  unsigned long i;
  unsigned long x;
  int at;
  upc_lock_t *lock;
  for (i = MYTHREAD; i < UPDATES; i += THREADS) {
    x = number(i);
    at = x % ENTRIES;
    lock = guard[upc_threadof(&entry[at])];
    upc_lock(lock);
    entry[at] ^= x;
    upc_unlock(lock);
  }
  upc_barrier;
}

void show(void) {
  unsigned long sum = 0;
  int other = 0;
  int i;
  if (MYTHREAD == 0) {
    for (i = 0; i < ENTRIES; i++) {
      sum ^= entry[i];
      other += entry[i] != i;
    }
    printf("%d of %d entries differ, sum %lx\n", other, ENTRIES, sum);
  }
  upc_barrier;
}

int main(void) {
  int i;
  guard[MYTHREAD] = upc_global_lock_alloc();
  upc_forall (i = 0; i < ENTRIES; i++; &entry[i])
    entry[i] = i;
  upc_barrier;
  update_all();
  show();
  update_all();
  show();
  return 0;
}
