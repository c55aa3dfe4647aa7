/* A cast to local of a far element: a pointer to private reaches the thread's own part alone, and value[0] lies on
   thread 0 (UPC 6.4.3). Elsewhere the cast is undefined; here it is run error E7. Mended: local_right. */
#include <upc_relaxed.h>
#include <stdio.h>

shared int value[THREADS];

int main(void) {
  int *mine = (int *)&value[0];
  *mine = MYTHREAD + 1;
  upc_barrier;
  if (MYTHREAD == 0)
    printf("%d\n", value[THREADS - 1]);
  return 0;
}
