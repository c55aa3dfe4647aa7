#include <upc_relaxed.h>
#include <upc_collective.h>
#include <stdio.h>
shared [2] int a[4];
shared [2] int d[4];
int main(void) {
  int i;
  if (MYTHREAD == 0) for (i = 0; i < 4; i++) a[i] = i + 1;
  upc_barrier;
  upc_all_exchange(d, a, sizeof(int), 0);
  if (MYTHREAD == 0) printf("%d %d %d %d\n", d[0], d[1], d[2], d[3]);
  return 0;
}
