/* A sort by neighbours. In each turn every pair of neighbours is put in order by the thread on which the left one
   lies; even and odd pairs take turns, so that no two threads touch one element in the same turn. As many turns as
   elements are enough. The barrier between two turns makes what one thread wrote visible to the others (UPC 6.6.1). */
#include <upc_relaxed.h>
#include <stdio.h>

#define COUNT 20

shared int value[COUNT];

void order(int left) {
  int low = value[left];
  int high = value[left + 1];
  if (low > high) {
    value[left] = high;
    value[left + 1] = low;
  }
}

int main(void) {
  int turn;
  int i;
  upc_forall (i = 0; i < COUNT; i++; &value[i])
    value[i] = (i * 37 + 11) % 50 - 10;
  upc_barrier;
  for (turn = 0; turn < COUNT; turn++) {
    upc_forall (i = turn % 2; i + 1 < COUNT; i += 2; &value[i])
      order(i);
    upc_barrier;
  }
  if (MYTHREAD == 0) {
    for (i = 0; i < COUNT; i++)
      printf("%d ", value[i]);
    printf("\n");
  }
  return 0;
}
