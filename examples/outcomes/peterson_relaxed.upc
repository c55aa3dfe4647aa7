/* Peterson's algorithm for two threads, with relaxed accesses: a thread says that it wants to enter, gives way to the
   other, and waits while the other wants to enter and has the way. With strict variables at most one thread is inside.
   Here a thread's writes may still wait in its buffer while it reads the other's, so both may enter.

   bin/outcomes -T 2 examples/outcomes/peterson_relaxed.upc lists runs with an overlap. With `strict` in place of
   `relaxed` before `wants` and `turn` there is none. */
#include <upc_relaxed.h>
#include <stdio.h>

relaxed shared int wants[2];
relaxed shared int turn;
strict shared int inside[2];
shared int seen[2];

int main(void) {
  int other = 1 - MYTHREAD;
  wants[MYTHREAD] = 1;
  turn = other;
  while (wants[other] == 1 && turn == other)
    ;
  inside[MYTHREAD] = 1;
  seen[MYTHREAD] = inside[other];
  inside[MYTHREAD] = 0;
  wants[MYTHREAD] = 0;
  upc_barrier;
  if (MYTHREAD == 0) {
    if (seen[0] + seen[1] > 0)
      printf("both inside\n");
    else
      printf("one at a time\n");
  }
  return 0;
}
