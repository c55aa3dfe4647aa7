/* S: thread 0 writes 2 into x and then y; thread 1 reads y and then writes 1 into x.

   Outcomes, as (what thread 1 read of y, what x is after the barrier):
   - Relaxed, by UPC: (0, 1), (0, 2), (1, 1), (1, 2). In (1, 2) thread 1 saw y, which was written after x, and still
     its own write of x comes before that one. The threads' orders may even set the two writes of x differently, so that
     one thread finds 1 after the barrier and the other 2.
   - Strict, by UPC: all but (1, 2). It is enough that both accesses to y are strict.
   - By the write buffer: all but (1, 2). Where y is seen, x stands in the history already, and thread 1's write
     follows. `upc run` may give each of these, and `bin/outcomes -T 2` lists them. */
#include <upc_relaxed.h>
#include <stdio.h>

shared int x;
shared int y;
shared int seen;

int main(void) {
  if (MYTHREAD == 0) {
    x = 2;
    y = 1;
  } else {
    seen = y;
    x = 1;
  }
  upc_barrier;
  if (MYTHREAD == 0)
    printf("y %d, in the end x %d\n", seen, x);
  return 0;
}
