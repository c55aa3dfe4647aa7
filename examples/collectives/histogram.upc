/* A histogram without a lock. Each thread counts into a block of its own, so no two threads write one cell; then a
   reduction for each bin adds the counts of all threads. A bin's counts lie one on each thread, at the same place
   of each block: a pointer of block size 1 goes from one to the next, so the pointer is cast. Without the cast its
   phase would be that of the block, and a phase that is not below blk is refused (E22). */
#include <upc_relaxed.h>
#include <upc_collective.h>
#include <stdio.h>
#define N 200
#define BINS 8
shared int value[N];
shared [BINS] int count[BINS * THREADS];
shared [] int total[BINS];

int main(void) {
  int i;
  int *mine = (int *)&count[BINS * MYTHREAD];
  upc_forall (i = 0; i < N; i++; &value[i]) value[i] = (i * i + 3 * i) % 50;
  upc_forall (i = 0; i < N; i++; &value[i]) mine[value[i] * BINS / 50]++;
  for (i = 0; i < BINS; i++)
    upc_all_reduceI(&total[i], (shared [1] int *)&count[i], UPC_ADD, THREADS, 1, NULL, 0);
  if (MYTHREAD == 0)
    for (i = 0; i < BINS; i++) printf("from %2d: %3d\n", (i * 50 + BINS - 1) / BINS, total[i]);
  return 0;
}
