/* local_wrong with a cast of the element that the thread has: value[MYTHREAD] lies on it (UPC 6.4.3, 6.5.1.1). On two
   threads it prints 2. */
#include <upc_relaxed.h>
#include <stdio.h>

shared int value[THREADS];

int main(void) {
  int *mine = (int *)&value[MYTHREAD];
  *mine = MYTHREAD + 1;
  upc_barrier;
  if (MYTHREAD == 0)
    printf("%d\n", value[THREADS - 1]);
  return 0;
}
