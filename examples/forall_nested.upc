/* A upc_forall in another. The outermost loop that has an affinity controls; inside it every other one, in a called
   function too, is as with `continue`, and each of its turns is taken by the thread that is there (UPC 6.6.2). With
   `continue` outside, the inner loop controls. Each grid has the thread that took the turn (row, column).
   The output is that of four threads. */
#include <upc_relaxed.h>
#include <stdio.h>

#define SIZE 4

shared int who[SIZE][SIZE];

void mark(int row) {
  int column;
  upc_forall (column = 0; column < SIZE; column++; column)
    who[row][column] = MYTHREAD;
}

void show(void) {
  int row;
  int column;
  upc_barrier;
  if (MYTHREAD == 0)
    for (row = 0; row < SIZE; row++) {
      for (column = 0; column < SIZE; column++)
        printf(" %d", who[row][column]);
      printf("\n");
    }
  upc_barrier;
}

int main(void) {
  int row;
  if (MYTHREAD == 0)
    printf("outside by row, inside by column: the outer one controls\n");
  upc_forall (row = 0; row < SIZE; row++; row)
    mark(row);
  show();
  if (MYTHREAD == 0)
    printf("outside continue, inside by column: the inner one controls\n");
  upc_forall (row = 0; row < SIZE; row++; continue)
    mark(row);
  show();
  return 0;
}
