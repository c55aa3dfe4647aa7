/* A barrier in a loop that not all threads go through equally often. With five elements thread 0 has one more than the
   last thread, and so meets one barrier more. The last thread's barrier after `main` answers that one, but none
   answers thread 0's own after `main` (UPC 6.6.1). When each thread that has not ended waits for what cannot come,
   the run ends: the line is `upc: deadlock`, the status 106. On one thread it ends well. Mended: the barrier after
   the loop. */
#include <upc_relaxed.h>
#include <stdio.h>

#define COUNT 5

shared int value[COUNT];

int main(void) {
  int i;
  for (i = MYTHREAD; i < COUNT; i += THREADS) {
    value[i] = i;
    upc_barrier;
  }
  return 0;
}
