/* Histogram by locks: each thread takes the values that lie on it, and adds each to its bucket, which may lie on
   another thread, under the lock of that thread's buckets (UPC 7.2.4). One lock for each thread lets threads go on
   side by side that come to different ones; each value costs a lock and two accesses. histogram_by_owner needs none.
   */
#include <upc_relaxed.h>
#include <stdio.h>

#define COUNT 240
#define BUCKETS 16

shared int value[COUNT];
shared int bucket[BUCKETS];
upc_lock_t *shared guard[THREADS];

int made(int i) {
  return (i * i + 3 * i) % 97 % BUCKETS;
}

int main(void) {
  int i;
  int into;
  upc_lock_t *lock;
  guard[MYTHREAD] = upc_global_lock_alloc();
  upc_forall (i = 0; i < COUNT; i++; &value[i])
    value[i] = made(i);
  upc_barrier;
  upc_forall (i = 0; i < COUNT; i++; &value[i]) {
    into = value[i];
    lock = guard[upc_threadof(&bucket[into])];
    upc_lock(lock);
    bucket[into]++;
    upc_unlock(lock);
  }
  upc_barrier;
  if (MYTHREAD == 0)
    for (i = 0; i < BUCKETS; i++)
      printf("%d%c", bucket[i], i == BUCKETS - 1 ? '\n' : ' ');
  return 0;
}
