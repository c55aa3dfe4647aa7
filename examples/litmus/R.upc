/* R: thread 0 writes x and then 1 into y; thread 1 writes 2 into y and then reads x.

   Outcomes, as (what thread 1 read of x, what y is after the barrier):
   - Relaxed, by UPC: (0, 1), (0, 2), (1, 1), (1, 2). In (0, 2) the write of 2 comes after that of 1, and yet the read
     that follows it misses x, which was written before that 1.
   - Strict, by UPC: all but (0, 2).
   - By the write buffer: all but (1, 1). For (0, 2) the write of 2 waits while thread 1 reads and thread 0 does all
     its work. For (1, 1) thread 1 would see x, whose write leaves the buffer together with that of 1 into y, and
     its own write, which waits until the barrier, comes after both. `upc run` may give each of these, and
     `bin/outcomes -T 2` lists them. */
#include <upc_relaxed.h>
#include <stdio.h>

shared int x;
shared int y;
shared int seen;

int main(void) {
  if (MYTHREAD == 0) {
    x = 1;
    y = 1;
  } else {
    y = 2;
    seen = x;
  }
  upc_barrier;
  if (MYTHREAD == 0)
    printf("x %d, in the end y %d\n", seen, y);
  return 0;
}
