/* The part of a shared array that a thread has, by a private pointer. A pointer-to-shared may be cast to a private one
   on the thread where it leads, and there the blocks of that thread lie one after another (UPC 6.4.3, 6.5.1.1).
   upc_affinitysize says how many bytes of so many in such blocks a thread has (UPC 7.2.3). */
#include <upc_relaxed.h>
#include <stdio.h>

#define COUNT 50
#define BLOCK 3

shared [BLOCK] int value[COUNT];
shared int largest[THREADS];

int main(void) {
  int *mine = (int *)&value[MYTHREAD * BLOCK];
  size_t count = upc_affinitysize(COUNT * sizeof(int), BLOCK * sizeof(int), MYTHREAD) / sizeof(int);
  size_t i;
  int thread;
  int found = 0;
  upc_forall (i = 0; i < COUNT; i++; &value[i])
    value[i] = 100 - ((int)i - 31) * ((int)i - 31);
  for (i = 0; i < count; i++)
    if (mine[i] > largest[MYTHREAD])
      largest[MYTHREAD] = mine[i];
  upc_barrier;
  if (MYTHREAD == 0) {
    for (thread = 0; thread < THREADS; thread++)
      if (largest[thread] > found)
        found = largest[thread];
    printf("%d\n", found);
  }
  return 0;
}
