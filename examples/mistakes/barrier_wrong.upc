/* No barrier: thread 0 adds up what the threads wrote, and nothing says that they have written it. On two threads it
   may print 3, or 1, where it reads the share of thread 1 before that is there. Mended: barrier_right. */
#include <upc_relaxed.h>
#include <stdio.h>

shared int share[THREADS];

int main(void) {
  int sum = 0;
  int i;
  share[MYTHREAD] = MYTHREAD + 1;
  if (MYTHREAD == 0) {
    for (i = 0; i < THREADS; i++)
      sum += share[i];
    printf("%d\n", sum);
  }
  return 0;
}
