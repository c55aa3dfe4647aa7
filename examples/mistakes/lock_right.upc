/* lock_wrong with a lock from before the read to after the write: what one thread does while it holds the lock,
   another that takes it later finds done (UPC 7.2.4). The work stands before the lock, so that it is held for little.
   Two threads end with 2 in every run. */
#include <upc_relaxed.h>
#include <stdio.h>

#define WORK 2000

shared int total;

int main(void) {
  upc_lock_t *guard = upc_all_lock_alloc();
  int i;
  for (i = 0; i < WORK; i++)
    ;
  upc_lock(guard);
  total = total + 1;
  upc_unlock(guard);
  upc_barrier;
  if (MYTHREAD == 0)
    printf("%d\n", total);
  return 0;
}
