/* branch_wrong with the barrier after the `if`, where each thread meets it: the last thread prints 7. */
#include <upc_relaxed.h>
#include <stdio.h>

shared int value;

int main(void) {
  if (MYTHREAD == 0)
    value = 7;
  upc_barrier;
  if (MYTHREAD == THREADS - 1)
    printf("%d\n", value);
  return 0;
}
