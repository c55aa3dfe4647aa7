/* A token goes round all threads a hundred times. Who waits for it looks at it, then turns a loop of its own before it
   looks again: a turn without a shared access is no item of the record, so waiting costs little of it. */
#include <upc_relaxed.h>
#include <stdio.h>

#define LAPS 100
#define PAUSE 1000

strict shared int steps;
shared long total;

void wait_for(int step) {
  int i;
  while (steps < step)
    for (i = 0; i < PAUSE; i++)
      ;
}

int main(void) {
  int lap;
  for (lap = 0; lap < LAPS; lap++) {
    wait_for(lap * THREADS + MYTHREAD);
    total += lap;
    steps = steps + 1;
  }
  upc_barrier;
  if (MYTHREAD == 0)
    printf("%d laps, %ld for each thread\n", steps / THREADS, total / THREADS);
  return 0;
}
