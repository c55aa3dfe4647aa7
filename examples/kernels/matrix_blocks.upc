/* Matrix product by blocks: a matrix is a square of tiles, and a tile is a block of a shared array, so it lies whole
   on one thread (UPC 6.5.1.1). The thread that has a tile of the product takes the tiles of a row and of a column into
   private arrays, one pair after the other, and multiplies there: each number that comes from far is used SIDE times.
   The check multiplies a vector by the product, and by one matrix after the other: both have to give the same. */
#include <upc_relaxed.h>
#include <stdio.h>

#define SIDE 4
#define TILES 3
#define SIZE (SIDE * TILES)

shared [SIDE * SIDE] int left[TILES * TILES][SIDE * SIDE];
shared [SIDE * SIDE] int right[TILES * TILES][SIDE * SIDE];
shared [SIDE * SIDE] int product[TILES * TILES][SIDE * SIDE];

int one[SIDE * SIDE];
int other[SIDE * SIDE];
int sums[SIDE * SIDE];

int tile_of(int i, int j) {
  return i / SIDE * TILES + j / SIDE;
}

int place_of(int i, int j) {
  return i % SIDE * SIDE + j % SIDE;
}

void multiply(void) {
  int i;
  int j;
  int k;
  for (i = 0; i < SIDE; i++)
    for (j = 0; j < SIDE; j++)
      for (k = 0; k < SIDE; k++)
        sums[i * SIDE + j] += one[i * SIDE + k] * other[k * SIDE + j];
}

void make_tile(int tile) {
  int between;
  int i;
  for (i = 0; i < SIDE * SIDE; i++)
    sums[i] = 0;
  for (between = 0; between < TILES; between++) {
    for (i = 0; i < SIDE * SIDE; i++) {
      one[i] = left[tile / TILES * TILES + between][i];
      other[i] = right[between * TILES + tile % TILES][i];
    }
    multiply();
  }
  for (i = 0; i < SIDE * SIDE; i++)
    product[tile][i] = sums[i];
}

void check(void) {
  int by_right[SIZE];
  int wrong = 0;
  int at_once;
  int in_turn;
  int i;
  int j;
  for (i = 0; i < SIZE; i++) {
    by_right[i] = 0;
    for (j = 0; j < SIZE; j++)
      by_right[i] += right[tile_of(i, j)][place_of(i, j)] * (j + 1);
  }
  for (i = 0; i < SIZE; i++) {
    at_once = in_turn = 0;
    for (j = 0; j < SIZE; j++) {
      at_once += product[tile_of(i, j)][place_of(i, j)] * (j + 1);
      in_turn += left[tile_of(i, j)][place_of(i, j)] * by_right[j];
    }
    wrong += at_once != in_turn;
    printf("%d%c", at_once, i == SIZE - 1 ? '\n' : ' ');
  }
  printf("%d of %d rows differ\n", wrong, SIZE);
}

int main(void) {
  int tile;
  int i;
  int row;
  int column;
  upc_forall (tile = 0; tile < TILES * TILES; tile++; &product[tile][0])
    for (i = 0; i < SIDE * SIDE; i++) {
      row = tile / TILES * SIDE + i / SIDE;
      column = tile % TILES * SIDE + i % SIDE;
      left[tile][i] = (row * 7 + column * 3) % 10;
      right[tile][i] = (row * 5 + column * column) % 10 - 4;
    }
  upc_barrier;
  upc_forall (tile = 0; tile < TILES * TILES; tile++; &product[tile][0])
    make_tile(tile);
  upc_barrier;
  if (MYTHREAD == 0)
    check();
  return 0;
}
