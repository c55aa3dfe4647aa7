/* A lost update: two threads add 1 to a shared counter without a lock. Each reads the counter and then writes it; where
   both read before either has written, one of the two additions is lost.

   bin/outcomes -T 2 examples/outcomes/lost_update.upc lists both outcomes: 2, and 1. With upc_lock around the addition
   (examples/locks/counter.upc) only the first is left. */
#include <upc_relaxed.h>
#include <stdio.h>

shared int counter;

int main(void) {
  counter = counter + 1;
  upc_barrier;
  if (MYTHREAD == 0)
    printf("counter %d\n", counter);
  return 0;
}
