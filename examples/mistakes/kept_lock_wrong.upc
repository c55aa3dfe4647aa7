/* A lock kept over `return`: a function returns in the middle, where the lock is not given back. The thread that comes
   first goes on with it to the barrier, the other waits for the lock for ever, and the run ends with a deadlock,
   status 106 (UPC 7.2.4). Mended: kept_lock_right. */
#include <upc_relaxed.h>
#include <stdio.h>

#define MOST 10

shared int count = MOST;

int take_one(upc_lock_t *guard) {
  upc_lock(guard);
  if (count == MOST)
    return 0;
  count++;
  upc_unlock(guard);
  return 1;
}

int main(void) {
  upc_lock_t *guard = upc_all_lock_alloc();
  take_one(guard);
  upc_barrier;
  if (MYTHREAD == 0)
    printf("%d\n", count);
  return 0;
}
