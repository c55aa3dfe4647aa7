/* The wrong affinity: the turns are dealt out by the number i, and the elements lie in blocks of four, so on four
   threads three of four accesses reach what lies on another thread. The answer is right, and on a machine whose
   threads have memories of their own it is slow: `bin/traffic` counts. Mended: affinity_right. */
#include <upc_relaxed.h>
#include <stdio.h>

#define COUNT 64

shared [4] int value[COUNT];
shared int share[THREADS];

int main(void) {
  int sum = 0;
  int i;
  upc_forall (i = 0; i < COUNT; i++; i) {
    value[i] = i * i;
    sum += value[i];
  }
  share[MYTHREAD] = sum;
  upc_barrier;
  sum = 0;
  if (MYTHREAD == 0) {
    for (i = 0; i < THREADS; i++)
      sum += share[i];
    printf("%d\n", sum);
  }
  return 0;
}
