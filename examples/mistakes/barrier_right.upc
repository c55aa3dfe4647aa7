/* barrier_wrong with a barrier between the writes and the reads: what stands before a barrier is seen after it by all
   threads (UPC 6.6.1), so on two threads it prints 3 in every run. */
#include <upc_relaxed.h>
#include <stdio.h>

shared int share[THREADS];

int main(void) {
  int sum = 0;
  int i;
  share[MYTHREAD] = MYTHREAD + 1;
  upc_barrier;
  if (MYTHREAD == 0) {
    for (i = 0; i < THREADS; i++)
      sum += share[i];
    printf("%d\n", sum);
  }
  return 0;
}
