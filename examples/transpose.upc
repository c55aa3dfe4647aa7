/* A matrix and its transpose, both by rows on the threads, one block a row. To put is to read at home and write far
   away, to get is to read far away and write at home: the affinity chooses (UPC 6.5.1.1, 6.6.2). Either way each
   element is written by one thread alone, so nothing races, and one barrier is enough. */
#include <upc_relaxed.h>
#include <stdio.h>

#define SIZE 5

shared [SIZE] int matrix[SIZE][SIZE];
shared [SIZE] int put[SIZE][SIZE];
shared [SIZE] int got[SIZE][SIZE];

int main(void) {
  int row;
  int column;
  int differ = 0;
  upc_forall (row = 0; row < SIZE; row++; &matrix[row][0])
    for (column = 0; column < SIZE; column++)
      matrix[row][column] = 10 * row + column;
  upc_barrier;
  upc_forall (row = 0; row < SIZE; row++; &matrix[row][0])
    for (column = 0; column < SIZE; column++)
      put[column][row] = matrix[row][column];
  upc_forall (row = 0; row < SIZE; row++; &got[row][0])
    for (column = 0; column < SIZE; column++)
      got[row][column] = matrix[column][row];
  upc_barrier;
  if (MYTHREAD == 0) {
    for (row = 0; row < SIZE; row++) {
      for (column = 0; column < SIZE; column++) {
        printf(" %02d", got[row][column]);
        differ += put[row][column] != got[row][column];
      }
      printf("\n");
    }
    printf("different: %d\n", differ);
  }
  return 0;
}
