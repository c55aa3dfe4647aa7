/* CoRR, coherence of two reads: thread 0 writes a variable, and thread 1 reads it twice.

   Outcomes, as the two values that thread 1 read, in program order:
   - Relaxed, by UPC: (0, 0), (0, 1), (1, 0), (1, 1). Two reads do not conflict, so even two of one variable need not
     stand in program order, and (1, 0) is allowed: first the new value, and then the old one.
   - Strict, by UPC: all but (1, 0).
   - By the write buffer: all but (1, 0). Both reads are made in order from one history, in which the write stands
     once. `upc run` may give each of these, and `bin/outcomes -T 2` lists them. */
#include <upc_relaxed.h>
#include <stdio.h>

shared int x;
shared int seen[2];

int main(void) {
  if (MYTHREAD == 0)
    x = 1;
  else {
    seen[0] = x;
    seen[1] = x;
  }
  upc_barrier;
  if (MYTHREAD == 0)
    printf("x %d, x %d\n", seen[0], seen[1]);
  return 0;
}
