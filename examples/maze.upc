/* The shortest way through a maze, by waves. Each cell that is not reached looks at its neighbours, on the thread
   where it lies: where one was reached in the wave before, it is reached in this one. A thread writes its own cells
   alone. Two barriers stand in each wave: one between reading and writing, one before the next wave reads (UPC 6.6.1).
   Whether any thread reached a cell is told in one strict element for each wave. */
#include <upc_relaxed.h>
#include <stdio.h>

#define SIDE 6
#define CELLS 36

shared int wall[CELLS];
shared int distance[CELLS];
strict shared int grew[CELLS + 1];

int reached_beside(int cell, int wave) {
  int row = cell / SIDE;
  int column = cell % SIDE;
  return row > 0 && distance[cell - SIDE] == wave || row < SIDE - 1 && distance[cell + SIDE] == wave
    || column > 0 && distance[cell - 1] == wave || column < SIDE - 1 && distance[cell + 1] == wave;
}

void spread(int wave) {
  int reached[CELLS];
  int cell;
  upc_forall (cell = 0; cell < CELLS; cell++; &distance[cell])
    reached[cell] = !wall[cell] && distance[cell] == 0 && reached_beside(cell, wave);
  upc_barrier;
  upc_forall (cell = 0; cell < CELLS; cell++; &distance[cell])
    if (reached[cell]) {
      distance[cell] = wave + 1;
      grew[wave] = 1;
    }
  upc_barrier;
}

int main(void) {
  int wave = 0;
  int cell;
  upc_forall (cell = 0; cell < CELLS; cell++; &wall[cell])
    wall[cell] = cell / SIDE % 2 == 1 && cell % SIDE != (cell / SIDE % 4 == 1 ? SIDE - 1 : 0);
  if (MYTHREAD == 0)
    distance[0] = 1;
  upc_barrier;
  do
    spread(++wave);
  while (grew[wave]);
  if (MYTHREAD == 0)
    for (cell = 0; cell < CELLS; cell++) {
      if (wall[cell])
        printf("  #");
      else
        printf("%3d", distance[cell]);
      if (cell % SIDE == SIDE - 1)
        printf("\n");
    }
  return 0;
}
