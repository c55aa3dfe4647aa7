#include <upc_relaxed.h>
#include <upc_collective.h>
#include <stdio.h>
shared [] int s[8];
shared [2] int d[8];
shared int r;
int main(void) {
  int i;
  if (MYTHREAD == 0) for (i = 0; i < 8; i++) s[i] = i + 1;
  upc_barrier;
  upc_all_scatter(&d[2], s, 2 * sizeof(int), 0);
  upc_all_reduceI(&r, d, UPC_ADD, 8, 2, NULL, 0);
  if (MYTHREAD == 0) printf("%d\n", r);
  return 0;
}
