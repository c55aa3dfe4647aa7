/* LB, load buffering: each thread reads one variable and then writes the other's.

   Outcomes, as (what thread 0 read of x, what thread 1 read of y):
   - Relaxed, by UPC: (0, 0), (0, 1), (1, 0), (1, 1). In (1, 1) each read gives what the other thread writes only after
     its own read: each thread's order may set the other's write first.
   - Strict, by UPC: all but (1, 1). The access that stands first of all is a read, and it gives 0.
   - By the write buffer: all but (1, 1). A read is made at once and a write never before its turn, so the first
     read comes before both writes. `upc run` may give each of these, and `bin/outcomes -T 2` lists them. */
#include <upc_relaxed.h>
#include <stdio.h>

shared int x;
shared int y;
shared int seen[THREADS];

int main(void) {
  if (MYTHREAD == 0) {
    seen[0] = x;
    y = 1;
  } else {
    seen[1] = y;
    x = 1;
  }
  upc_barrier;
  if (MYTHREAD == 0)
    printf("x %d, y %d\n", seen[0], seen[1]);
  return 0;
}
