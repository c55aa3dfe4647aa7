/* A barrier in two halves. After upc_notify a thread may do what concerns no other thread, and only upc_wait holds it
   until all have notified (UPC 6.6.1): what was written before the notify can be read after the wait. Each thread
   makes its elements, notifies, smooths those whose neighbours it made itself, waits, and then those at the edges of
   its blocks, whose neighbours lie on other threads. */
#include <upc_relaxed.h>
#include <stdio.h>

#define COUNT 24
#define BLOCK 4

shared [BLOCK] int rough[COUNT];
shared [BLOCK] int smooth[COUNT];

int is_edge(int i) {
  return i % BLOCK == 0 || i % BLOCK == BLOCK - 1;
}

int smoothed(int i) {
  int left = i == 0 ? i : i - 1;
  int right = i == COUNT - 1 ? i : i + 1;
  return (rough[left] + 2 * rough[i] + rough[right]) / 4;
}

int main(void) {
  int i;
  upc_forall (i = 0; i < COUNT; i++; &rough[i])
    rough[i] = 100 * (i % 4) + i;
  upc_notify;
  upc_forall (i = 0; i < COUNT; i++; &smooth[i])
    if (!is_edge(i))
      smooth[i] = smoothed(i);
  upc_wait;
  upc_forall (i = 0; i < COUNT; i++; &smooth[i])
    if (is_edge(i))
      smooth[i] = smoothed(i);
  upc_barrier;
  if (MYTHREAD == 0) {
    for (i = 0; i < COUNT; i++)
      printf("%d ", smooth[i]);
    printf("\n");
  }
  return 0;
}
