/* Each thread says hello, a line each, in the order of their numbers. What is printed comes out in the order of the
   run's history, in which each printf is one entry. Nothing but a barrier, a strict access or a lock puts the entries
   of two threads in an order (UPC 6.6.1): without the barrier here the lines might come in any order, though one line
   is never cut by another. So a turn of the loop is for one thread, and all meet before the next turn. */
#include <upc_relaxed.h>
#include <stdio.h>

int main(void) {
  int turn;
  for (turn = 0; turn < THREADS; turn++) {
    if (turn == MYTHREAD)
      printf("hello from thread %d of %d\n", MYTHREAD, THREADS);
    upc_barrier;
  }
  return 0;
}
