/* A queue with room for four, under a lock. Even threads put numbers in, all threads take them out, and each number
   is taken once. A thread that finds the queue full or empty gives the lock back and tries again, so nobody waits
   while it holds the lock. Which thread takes a number depends on the run; that all are taken does not (UPC 7.2.4).
   Nothing is called between upc_lock and upc_unlock: this runtime ends a thread's part in a round at a loop's test or a
   call, and a thread that always ended it with the lock in its hand would let no other thread in. */
#include <upc_relaxed.h>
#include <stdio.h>

#define ROOM 4
#define COUNT 24

shared [] int place[ROOM];
shared int first;
shared int waiting;
shared int next;
shared int taken;
shared int times[COUNT];

int main(void) {
  upc_lock_t *guard = upc_all_lock_alloc();
  int done = 0;
  int turn;
  int wrong = 0;
  for (turn = MYTHREAD; !done; turn++) {
    upc_lock(guard);
    if (turn % 2 == 0 && MYTHREAD % 2 == 0) {
      if (next < COUNT && waiting < ROOM) {
        place[(first + waiting) % ROOM] = next;
        waiting++;
        next++;
      }
    } else if (waiting > 0) {
      times[place[first]]++;
      first = (first + 1) % ROOM;
      waiting--;
      taken++;
    }
    done = taken == COUNT;
    upc_unlock(guard);
  }
  upc_barrier;
  if (MYTHREAD == 0) {
    for (turn = 0; turn < COUNT; turn++)
      wrong += times[turn] != 1;
    printf("taken %d, not once %d, left %d\n", taken, wrong, waiting);
  }
  return 0;
}
