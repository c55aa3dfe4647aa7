/* 2+2W, two and two writes: both threads write both variables, in opposite orders: 1 first and then 2.

   Outcomes, as (x, y) after the barrier:
   - Relaxed, by UPC: (1, 1), (1, 2), (2, 1), (2, 2). In (1, 1) both first writes come last. The threads' orders may
     even differ, so that two threads find different values after the barrier.
   - Strict, by UPC: all but (1, 1). The write that stands last of all is the second of its thread, and it writes 2.
   - By the write buffer: (1, 2), (2, 1). The writes of a thread wait until it comes to the barrier, and then leave
     its buffer in order and together, so the last two are of one thread. `upc run` may give either, and
     `bin/outcomes -T 2` lists both. */
#include <upc_relaxed.h>
#include <stdio.h>

shared int x;
shared int y;

int main(void) {
  if (MYTHREAD == 0) {
    x = 1;
    y = 2;
  } else {
    y = 1;
    x = 2;
  }
  upc_barrier;
  if (MYTHREAD == 0)
    printf("in the end x %d, y %d\n", x, y);
  return 0;
}
