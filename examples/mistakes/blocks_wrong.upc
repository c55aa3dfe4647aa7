/* A block mismatch: the array lies in blocks of four, the pointer counts in blocks of one, which the cast allows, and
   so it comes by the elements in another order (UPC 6.4.3, 6.4.2). On two threads it prints 0 4 1 5. Mended:
   blocks_right. */
#include <upc_relaxed.h>
#include <stdio.h>

#define COUNT 16

shared [4] int value[COUNT];

int main(void) {
  shared int *at = (shared int *)value;
  int i;
  upc_forall (i = 0; i < COUNT; i++; &value[i])
    value[i] = i;
  upc_barrier;
  if (MYTHREAD == 0)
    printf("%d %d %d %d\n", at[0], at[1], at[2], at[3]);
  return 0;
}
