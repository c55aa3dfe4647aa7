/* Prefix sums say where to write. Each thread keeps those of its numbers that 3 divides. The sums of how many the
   threads keep say where each one's numbers end in the list of all, so every thread puts its own there at once: no
   lock, and no two threads write one cell. */
#include <upc_relaxed.h>
#include <upc_collective.h>
#include <stdio.h>
#define EACH 6
shared [EACH] int number[EACH * THREADS];
shared int kept[THREADS];
shared int upto[THREADS];
shared [] int list[EACH * THREADS];

int main(void) {
  int i, n = 0, mine[EACH];
  int *here = (int *)&number[EACH * MYTHREAD];
  for (i = 0; i < EACH; i++) here[i] = (7 * (EACH * MYTHREAD + i) + 5) % 24;
  for (i = 0; i < EACH; i++)
    if (here[i] % 3 == 0) mine[n++] = here[i];
  kept[MYTHREAD] = n;
  upc_all_prefix_reduceI(upto, kept, UPC_ADD, THREADS, 1, NULL, 0);
  upc_memput(&list[upto[MYTHREAD] - n], mine, n * sizeof(int));
  upc_barrier;
  if (MYTHREAD == 0)
    for (i = 0; i < upto[THREADS - 1]; i++) printf("%d\n", list[i]);
  return 0;
}
