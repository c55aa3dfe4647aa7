/* IRIW, independent reads of independent writes, laid out so that copies show it. Threads 0 and 1 write one variable
   each; thread 2 looks at x until it is written, and then at y; thread 3 at y until it is written, and then at x.

   Outcomes, as (thread 2: y; thread 3: x), each after it has seen the other variable:
   - Relaxed, by UPC: (0, 0), (0, 1), (1, 0), (1, 1). In (0, 0) the two readers saw the two writes in opposite orders:
     each thread has an order of its own, in which the other threads' relaxed writes may stand anywhere.
   - Strict, by UPC: all but (0, 0). All threads see strict accesses in one order.
   - By the write buffer: all but (0, 0), since there is one history. `upc run` gives (0, 1): y is written some rounds
     after thread 2 has looked.
   - By copies with mail: all four. `upc replica` gives (0, 0). Before an action a thread takes in at most one message,
     from the threads in turn, and mail comes in the order in which it was sent. Thread 2 looks all the time, and so
     takes in the writes of `ahead` and that of x; thread 3 does next to nothing, and when it sees y, the mail from
     thread 0 still has x after many of the others. Before a barrier all mail comes: so the other three stay away from
     it until thread 3 has looked. */
#include <upc_relaxed.h>
#include <stdio.h>

#define AHEAD 20
#define ROUND 1024

shared int x;
shared int y;
shared int ahead;

void rest(int rounds) {
  int i;
  for (i = 0; i < rounds * ROUND; i++)
    ;
}

int main(void) {
  int i;
  switch (MYTHREAD) {
    case 0:
      rest(2);
      for (i = 0; i < AHEAD; i++)
        ahead = i;
      x = 1;
      break;
    case 1:
      rest(6);
      y = 1;
      break;
    case 2:
      while (!x)
        ;
      printf("thread 2: x 1, y %d\n", y);
      break;
    default:
      rest(8);
      while (!y)
        ;
      printf("thread 3: y 1, x %d\n", x);
  }
  if (MYTHREAD < 3)
    rest(12);
  return 0;
}
