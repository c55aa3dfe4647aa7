/* A counter under a lock. Each thread adds 10 times 1: reads, adds and writes. Without the lock two threads may read
   the same value, and one of their turns is lost. upc_lock lets one thread through at a time, and what it wrote before
   upc_unlock is seen by the next (UPC 7.2.4): so relaxed accesses are enough inside. All threads call
   upc_all_lock_alloc and get the same lock. The counter comes to ten for each thread. */
#include <upc_relaxed.h>
#include <stdio.h>

#define TURNS 10

shared int counter;

int main(void) {
  upc_lock_t *guard = upc_all_lock_alloc();
  int i;
  for (i = 0; i < TURNS; i++) {
    upc_lock(guard);
    counter = counter + 1;
    upc_unlock(guard);
  }
  upc_barrier;
  if (MYTHREAD == 0)
    printf("lost: %d\n", TURNS * THREADS - counter);
  upc_all_lock_free(guard);
  return 0;
}
