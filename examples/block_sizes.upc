/* One array by pointers of other block sizes. A cast keeps the thread and the byte, and makes the phase 0; from there
   on the pointer counts by its own block size, and so comes by the elements in another order (UPC 6.4.3, 6.4.2). The
   output is that of four threads. */
#include <upc_relaxed.h>
#include <stdio.h>

#define COUNT 16

shared [2] int value[COUNT];

int main(void) {
  shared int *by_one = (shared int *)&value[0];
  shared [] int *on_one_thread = (shared [] int *)&value[2];
  shared [4] int *by_four = (shared [4] int *)&value[1];
  int i;
  upc_forall (i = 0; i < COUNT; i++; &value[i])
    value[i] = i;
  upc_barrier;
  if (MYTHREAD != 0)
    return 0;
  printf("blocks of 2, from value[0]:");
  for (i = 0; i < COUNT; i++)
    printf(" %d", value[i]);
  printf("\nblocks of 1, from value[0]:");
  for (i = 0; i < COUNT; i++)
    printf(" %d", by_one[i]);
  printf("\nno blocks, from value[2]:");
  for (i = 0; i < 4; i++)
    printf(" %d", on_one_thread[i]);
  printf("\nblocks of 4, from value[1]:");
  for (i = 0; i < 3; i++)
    printf(" %d", by_four[i]);
  printf("\nphase of &value[1]: %lu, after the cast: %lu\n", upc_phaseof(&value[1]), upc_phaseof(by_four));
  printf("back by a cast: %d\n", (shared [2] int *)(by_one + 1) == &value[2]);
  return 0;
}
