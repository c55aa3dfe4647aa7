/* blocks_wrong with a pointer of the array's own block size, for which no cast is needed: it prints 0 1 2 3 on every
   number of threads. Where a cast of a pointer-to-shared is needed, that is mostly a sign of a wrong block size. */
#include <upc_relaxed.h>
#include <stdio.h>

#define COUNT 16

shared [4] int value[COUNT];

int main(void) {
  shared [4] int *at = value;
  int i;
  upc_forall (i = 0; i < COUNT; i++; &value[i])
    value[i] = i;
  upc_barrier;
  if (MYTHREAD == 0)
    printf("%d %d %d %d\n", at[0], at[1], at[2], at[3]);
  return 0;
}
