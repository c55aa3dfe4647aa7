/* histogram_wrong with a lock around each addition: an unlock comes before each later lock of the same lock (UPC
   7.2.4), so of two additions to one bucket one comes before the other, and there is no race. */
#include <upc_relaxed.h>
#include <stdio.h>

#define EACH 8
#define BUCKETS 6

shared [EACH] int value[EACH * THREADS];
shared int bucket[BUCKETS];

int main(void) {
  upc_lock_t *guard = upc_all_lock_alloc();
  int i;
  upc_forall (i = 0; i < EACH * THREADS; i++; &value[i])
    value[i] = i / 3;
  upc_forall (i = 0; i < EACH * THREADS; i++; &value[i]) {
    upc_lock(guard);
    bucket[value[i]]++;
    upc_unlock(guard);
  }
  upc_barrier;
  if (MYTHREAD == 0)
    for (i = 0; i < BUCKETS; i++)
      printf("%d%c", bucket[i], i == BUCKETS - 1 ? '\n' : ' ');
  return 0;
}
