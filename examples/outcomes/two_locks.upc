/* A deadlock of two locks: thread 0 takes the first and then the second, thread 1 the second and then the first. Where
   each has taken one, both wait for ever.

   bin/outcomes -T 2 examples/outcomes/two_locks.upc lists both outcomes: the sum, and status 106 with the line of a
   deadlock. Where all threads take the locks in one order, there is no deadlock. */
#include <upc.h>
#include <stdio.h>

shared int sum;

int main(void) {
  upc_lock_t *first = upc_all_lock_alloc();
  upc_lock_t *second = upc_all_lock_alloc();
  if (MYTHREAD == 0) {
    upc_lock(first);
    upc_lock(second);
  } else {
    upc_lock(second);
    upc_lock(first);
  }
  sum = sum + 1;
  upc_unlock(first);
  upc_unlock(second);
  upc_barrier;
  if (MYTHREAD == 0)
    printf("sum %d\n", sum);
  return 0;
}
