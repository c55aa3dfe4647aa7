/* The transpose of a matrix by one exchange. Each thread has R rows. Cut into THREADS by THREADS squares, a
   transpose exchanges square (i, j) with square (j, i), and turns each over. The first is upc_all_exchange, for
   which each thread lays its squares one after the other; the second wants no other thread. */
#include <upc_relaxed.h>
#include <upc_collective.h>
#include <stdio.h>
#define R 2
#define N (R * THREADS)
shared [R * N] int matrix[N * N];
shared [R * N] int packed[N * N];
shared [R * N] int swapped[N * N];

int main(void) {
  int i, j, k;
  int *rows = (int *)&matrix[R * N * MYTHREAD];
  int *pack = (int *)&packed[R * N * MYTHREAD];
  int *swap = (int *)&swapped[R * N * MYTHREAD];
  for (i = 0; i < R; i++)
    for (j = 0; j < N; j++) rows[i * N + j] = 100 * (R * MYTHREAD + i) + j;
  for (k = 0; k < THREADS; k++)
    for (i = 0; i < R; i++)
      for (j = 0; j < R; j++) pack[k * R * R + i * R + j] = rows[i * N + k * R + j];
  upc_all_exchange(swapped, packed, R * R * sizeof(int), 0);
  for (k = 0; k < THREADS; k++)
    for (i = 0; i < R; i++)
      for (j = 0; j < R; j++) rows[i * N + k * R + j] = swap[k * R * R + j * R + i];
  upc_barrier;
  if (MYTHREAD == 0)
    for (i = 0; i < N; i++)
      for (j = 0; j < N; j++) printf("%4d%c", matrix[i * N + j], j == N - 1 ? '\n' : ' ');
  return 0;
}
