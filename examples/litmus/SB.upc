/* SB, store buffering: each thread writes one variable and then reads the other's.

   Outcomes, as (what thread 0 read of y, what thread 1 read of x):
   - Relaxed, by UPC: (0, 0), (0, 1), (1, 0), (1, 1). A thread's write and its read are of two variables, so no thread's
     order need keep them in program order.
   - Strict, by UPC: all but (0, 0). The four accesses stand in one order; the read that stands last gives 1.
   - By the write buffer: all but (1, 1). For (0, 0) both writes still wait while both threads read. For (1, 1) each
     write would have to leave its buffer before the other thread's read, and a write waits here until its thread
     comes to the barrier, after its own read. `upc run` may give each of these, and `bin/outcomes -T 2` lists them. */
#include <upc_relaxed.h>
#include <stdio.h>

shared int x;
shared int y;
shared int seen[THREADS];

int main(void) {
  if (MYTHREAD == 0) {
    x = 1;
    seen[0] = y;
  } else {
    y = 1;
    seen[1] = x;
  }
  upc_barrier;
  if (MYTHREAD == 0)
    printf("y %d, x %d\n", seen[0], seen[1]);
  return 0;
}
