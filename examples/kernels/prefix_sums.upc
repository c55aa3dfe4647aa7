/* Prefix sums: each element becomes the sum of all up to it. Each thread adds up its block; then the sums of the
   threads are made prefixes by doubling: in each step a thread adds what the one 1, 2, 4 .. before it has, so that few
   barriers are enough; then each thread goes through its block once more, from the sum of those before it on. Steps
   take two rows in turn: one is read and the other written (UPC 6.6.1). */
#include <upc_relaxed.h>
#include <stdio.h>

#define COUNT 150

shared [*] int value[COUNT];
shared int total[2][THREADS];

int main(void) {
  int sum = 0;
  int row = 0;
  int far;
  int i;
  upc_forall (i = 0; i < COUNT; i++; &value[i]) {
    value[i] = i % 7 - 2;
    sum += value[i];
  }
  total[row][MYTHREAD] = sum;
  upc_barrier;
  for (far = 1; far < THREADS; far *= 2) {
    total[1 - row][MYTHREAD] = total[row][MYTHREAD] + (MYTHREAD >= far ? total[row][MYTHREAD - far] : 0);
    row = 1 - row;
    upc_barrier;
  }
  sum = MYTHREAD > 0 ? total[row][MYTHREAD - 1] : 0;
  upc_forall (i = 0; i < COUNT; i++; &value[i]) {
    sum += value[i];
    value[i] = sum;
  }
  upc_barrier;
  if (MYTHREAD == 0)
    for (i = 0; i < COUNT; i++)
      printf("%3d%c", value[i], i % 25 == 24 ? '\n' : ' ');
  return 0;
}
