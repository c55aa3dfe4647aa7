/* kept_lock_wrong with one way out of the function: what is to be returned is noted, and the lock is given back on
   every way (UPC 7.2.4). It prints 10. */
#include <upc_relaxed.h>
#include <stdio.h>

#define MOST 10

shared int count = MOST;

int take_one(upc_lock_t *guard) {
  int taken = 0;
  upc_lock(guard);
  if (count < MOST) {
    count++;
    taken = 1;
  }
  upc_unlock(guard);
  return taken;
}

int main(void) {
  upc_lock_t *guard = upc_all_lock_alloc();
  take_one(guard);
  upc_barrier;
  if (MYTHREAD == 0)
    printf("%d\n", count);
  return 0;
}
