/* affinity_wrong with the element as the affinity: each turn is taken by the thread on which value[i] lies, whatever
   the block size (UPC 6.6.2), and every access to the array is a thread's own. */
#include <upc_relaxed.h>
#include <stdio.h>

#define COUNT 64

shared [4] int value[COUNT];
shared int share[THREADS];

int main(void) {
  int sum = 0;
  int i;
  upc_forall (i = 0; i < COUNT; i++; &value[i]) {
    value[i] = i * i;
    sum += value[i];
  }
  share[MYTHREAD] = sum;
  upc_barrier;
  sum = 0;
  if (MYTHREAD == 0) {
    for (i = 0; i < THREADS; i++)
      sum += share[i];
    printf("%d\n", sum);
  }
  return 0;
}
