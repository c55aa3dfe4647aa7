/* Blocks that go round: upc_all_permute gives block i to thread perm[i]. After THREADS turns each block is at home
   again, and each thread has seen all of them. There are two arrays, since a destination may be no source: the
   threads copy in no order. */
#include <upc_relaxed.h>
#include <upc_collective.h>
#include <stdio.h>
shared [3] int a[3 * THREADS];
shared [3] int b[3 * THREADS];
shared int perm[THREADS];
shared unsigned int seen[THREADS];

int main(void) {
  int i, turn;
  int *mine = (int *)&a[3 * MYTHREAD];
  int *next = (int *)&b[3 * MYTHREAD];
  perm[MYTHREAD] = (MYTHREAD + 1) % THREADS;
  for (i = 0; i < 3; i++) mine[i] = 10 * MYTHREAD + i;
  for (turn = 0; turn < THREADS; turn++) {
    seen[MYTHREAD] = 7 * seen[MYTHREAD] + mine[0] + mine[2];
    upc_all_permute(b, a, perm, 3 * sizeof(int), 0);
    for (i = 0; i < 3; i++) mine[i] = next[i];
  }
  upc_barrier;
  if (MYTHREAD == 0)
    for (i = 0; i < THREADS; i++) printf("%d %u\n", a[3 * i], seen[i]);
  return 0;
}
