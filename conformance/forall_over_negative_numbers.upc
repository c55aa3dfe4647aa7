#include <stdio.h>
shared int by[4];
int main(void) {
  int i;
  upc_forall (i = -2; i < 2; i++; i) by[i + 2] = MYTHREAD;
  upc_barrier;
  if (MYTHREAD == 0) printf("%d %d %d %d\n", by[0], by[1], by[2], by[3]);
  return 0;
}
