/* Stencil with ghost cells: heat on a ring of cells, of which each thread has a block. It keeps its block in a private
   array with a ghost cell at each end, the copy of the neighbour's edge. In each step it shows its own edges, and
   after one barrier reads the two of its neighbours; steps take two rows of edges in turn, so that a thread that is a
   step ahead writes none that another still reads (UPC 6.6.1). Two far reads for each step and thread, however long
   the block is. */
#include <upc_relaxed.h>
#include <stdio.h>

#define CELLS 64
#define STEPS 12
#define BLOCK ((CELLS + THREADS - 1) / THREADS)
#define PARTS ((CELLS + BLOCK - 1) / BLOCK)

shared [BLOCK] int heat[CELLS];
shared int first[2][THREADS];
shared int last[2][THREADS];

int mine[CELLS + 2];
int next[CELLS + 2];

/* One step of the cells 1 to count; those at 0 and count + 1 are ghosts. */
void step(int count, int row) {
  int i;
  first[row][MYTHREAD] = mine[1];
  last[row][MYTHREAD] = mine[count];
  upc_barrier;
  if (count == 0)
    return;
  mine[0] = last[row][(MYTHREAD + PARTS - 1) % PARTS];
  mine[count + 1] = first[row][(MYTHREAD + 1) % PARTS];
  for (i = 1; i <= count; i++)
    next[i] = (mine[i - 1] + 2 * mine[i] + mine[i + 1]) / 4;
  for (i = 1; i <= count; i++)
    mine[i] = next[i];
}

int main(void) {
  int begin = MYTHREAD * BLOCK;
  int end = begin + BLOCK < CELLS ? begin + BLOCK : CELLS;
  int count = end > begin ? end - begin : 0;
  int i;
  for (i = 0; i < count; i++)
    mine[i + 1] = begin + i == CELLS / 3 ? 64000 : begin + i == CELLS - 1 ? 16000 : 0;
  for (i = 0; i < STEPS; i++)
    step(count, i % 2);
  for (i = 0; i < count; i++)
    heat[begin + i] = mine[i + 1];
  upc_barrier;
  if (MYTHREAD == 0)
    for (i = 0; i < CELLS; i++)
      printf("%5d%c", heat[i], i % 16 == 15 ? '\n' : ' ');
  return 0;
}
