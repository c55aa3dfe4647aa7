/* Histogram by owner: each thread counts the values that lie on it in an array of its own, writes that as its row, and
   after a barrier the thread that has a bucket adds up its column: owner computes (UPC 6.6.2). No lock is needed, and
   what goes from thread to thread is a row for each thread, however many values there are. It prints the same as
   histogram_by_locks. */
#include <upc_relaxed.h>
#include <stdio.h>

#define COUNT 240
#define BUCKETS 16

shared int value[COUNT];
shared int bucket[BUCKETS];
shared [BUCKETS] int row[THREADS][BUCKETS];

int made(int i) {
  return (i * i + 3 * i) % 97 % BUCKETS;
}

int main(void) {
  int count[BUCKETS];
  int i;
  int thread;
  int sum;
  upc_forall (i = 0; i < COUNT; i++; &value[i])
    value[i] = made(i);
  for (i = 0; i < BUCKETS; i++)
    count[i] = 0;
  upc_forall (i = 0; i < COUNT; i++; &value[i])
    count[value[i]]++;
  for (i = 0; i < BUCKETS; i++)
    row[MYTHREAD][i] = count[i];
  upc_barrier;
  upc_forall (i = 0; i < BUCKETS; i++; &bucket[i]) {
    sum = 0;
    for (thread = 0; thread < THREADS; thread++)
      sum += row[thread][i];
    bucket[i] = sum;
  }
  upc_barrier;
  if (MYTHREAD == 0)
    for (i = 0; i < BUCKETS; i++)
      printf("%d%c", bucket[i], i == BUCKETS - 1 ? '\n' : ' ');
  return 0;
}
