/* The Game of Life on a torus. The rows of the field lie on the threads in turn, one block a row. In each generation a
   thread makes the new rows that it has, from rows that may lie on others, and a barrier stands between two generations
   (UPC 6.5.1.1, 6.6.1, 6.6.2). */
#include <upc_relaxed.h>
#include <stdio.h>

#define ROWS 8
#define COLUMNS 12
#define GENERATIONS 4

shared [COLUMNS] char field[2][ROWS][COLUMNS];

int neighbours(int now, int row, int column) {
  int count = 0;
  int down;
  int right;
  for (down = -1; down <= 1; down++)
    for (right = -1; right <= 1; right++)
      if (down != 0 || right != 0)
        count += field[now][(row + down + ROWS) % ROWS][(column + right + COLUMNS) % COLUMNS];
  return count;
}

int lives(int alive, int count) {
  switch (count) {
    case 2:
      return alive;
    case 3:
      return 1;
    default:
      return 0;
  }
}

void show(int now) {
  int row;
  int column;
  for (row = 0; row < ROWS; row++) {
    for (column = 0; column < COLUMNS; column++)
      printf("%c", field[now][row][column] ? '#' : '.');
    printf("\n");
  }
  printf("\n");
}

int main(void) {
  int now = 0;
  int generation;
  int row;
  int column;
  if (MYTHREAD == 0) {
    /* A glider, and a blinker that it does not meet. */
    field[0][0][1] = 1;
    field[0][1][2] = 1;
    field[0][2][0] = field[0][2][1] = field[0][2][2] = 1;
    field[0][5][7] = field[0][5][8] = field[0][5][9] = 1;
  }
  upc_barrier;
  for (generation = 0; generation <= GENERATIONS; generation++) {
    if (MYTHREAD == 0 && (generation == 0 || generation == GENERATIONS))
      show(now);
    upc_forall (row = 0; row < ROWS; row++; &field[1 - now][row][0])
      for (column = 0; column < COLUMNS; column++)
        field[1 - now][row][column] = lives(field[now][row][column], neighbours(now, row, column));
    upc_barrier;
    now = 1 - now;
  }
  return 0;
}
