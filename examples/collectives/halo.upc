/* A row of cells on a ring, by rule 110: a cell lives on unless it and both neighbours live, or comes to life where
   its right neighbour lives. Each thread works on a private copy of its piece with a cell more at each end, its
   halo, which it gets from its neighbours. Memory calls are relaxed: the barriers are what makes puts seen, and
   keeps a put from overtaking a neighbour's get. */
#include <upc_relaxed.h>
#include <stdio.h>
#define W 16
#define STEPS 8
shared [W] char row[W * THREADS];

void show(void) {
  int i;
  for (i = 0; i < W * THREADS; i++) printf("%c", row[i] ? '#' : '.');
  printf("\n");
}

int main(void) {
  char here[W + 2], next[W];
  int i, step;
  int left = (MYTHREAD + THREADS - 1) % THREADS, right = (MYTHREAD + 1) % THREADS;
  for (i = 0; i < W; i++) next[i] = MYTHREAD == THREADS - 1 && i == W - 1;
  for (step = 0; step < STEPS; step++) {
    upc_memput(&row[W * MYTHREAD], next, W);
    upc_barrier;
    if (MYTHREAD == 0) show();
    upc_memget(here, &row[W * left + W - 1], 1);
    upc_memget(&here[1], &row[W * MYTHREAD], W);
    upc_memget(&here[W + 1], &row[W * right], 1);
    upc_barrier;
    for (i = 1; i <= W; i++) next[i - 1] = (110 >> (4 * here[i - 1] + 2 * here[i] + here[i + 1])) & 1;
  }
  return 0;
}
