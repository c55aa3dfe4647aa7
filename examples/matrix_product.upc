/* A product of two matrices, shared by rows. Each block of a shared array has one row, so that a whole row lies on one
   thread (UPC 6.5.1.1), and upc_forall gives each thread the rows that it has (UPC 6.6.2). */
#include <upc_relaxed.h>
#include <stdio.h>

#define SIZE 7

shared [SIZE] int left[SIZE][SIZE];
shared [SIZE] int right[SIZE][SIZE];
shared [SIZE] int product[SIZE][SIZE];

int dot(int row, int column) {
  int sum = 0;
  int k;
  for (k = 0; k < SIZE; k++)
    sum += left[row][k] * right[k][column];
  return sum;
}

int main(void) {
  int row;
  int column;
  upc_forall (row = 0; row < SIZE; row++; &left[row][0])
    for (column = 0; column < SIZE; column++) {
      left[row][column] = row - column;
      right[row][column] = row == column ? 2 : row + column == SIZE - 1;
    }
  upc_barrier;
  upc_forall (row = 0; row < SIZE; row++; &product[row][0])
    for (column = 0; column < SIZE; column++)
      product[row][column] = dot(row, column);
  upc_barrier;
  if (MYTHREAD == 0)
    for (row = 0; row < SIZE; row++) {
      for (column = 0; column < SIZE; column++)
        printf("%4d", product[row][column]);
      printf("\n");
    }
  return 0;
}
