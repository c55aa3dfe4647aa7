/* IRIW, independent reads of independent writes: threads 0 and 1 write one variable each; threads 2 and 3 read both,
   thread 2 first x and thread 3 first y.

   Outcomes, as (thread 2: x, y; thread 3: y, x):
   - Relaxed, by UPC: all 16. In (1, 0; 1, 0) the two readers saw the two writes in opposite orders: each thread has an
     order of its own, in which the other threads' relaxed writes may stand anywhere.
   - Strict, by UPC: all but (1, 0; 1, 0). All threads see strict accesses in one order.
   - By the write buffer: all but (1, 0; 1, 0). There is one history, and a thread's reads are made in order; only
     the thread that wrote sees its own write sooner than the others do. `upc run` may give each of these, and
     `bin/outcomes -T 4` lists them. */
#include <upc_relaxed.h>
#include <stdio.h>

shared int x;
shared int y;
shared int seen[4];

int main(void) {
  switch (MYTHREAD) {
    case 0:
      x = 1;
      break;
    case 1:
      y = 1;
      break;
    case 2:
      seen[0] = x;
      seen[1] = y;
      break;
    default:
      seen[2] = y;
      seen[3] = x;
  }
  upc_barrier;
  if (MYTHREAD == 0)
    printf("thread 2: x %d, y %d; thread 3: y %d, x %d\n", seen[0], seen[1], seen[2], seen[3]);
  return 0;
}
