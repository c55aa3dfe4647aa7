/* Histogram without a lock: each thread takes the values that lie on it, and adds each to its bucket. On two threads
   bucket 2 alone gets values of both: two of thread 0 and one of thread 1. Nothing orders these additions, so one may
   be lost, and bucket 2 is told as a race (UPC 5.1.2.3, Appendix B). Mended: histogram_right. */
#include <upc_relaxed.h>
#include <stdio.h>

#define EACH 8
#define BUCKETS 6

shared [EACH] int value[EACH * THREADS];
shared int bucket[BUCKETS];

int main(void) {
  int i;
  upc_forall (i = 0; i < EACH * THREADS; i++; &value[i])
    value[i] = i / 3;
  upc_forall (i = 0; i < EACH * THREADS; i++; &value[i])
    bucket[value[i]]++;
  upc_barrier;
  if (MYTHREAD == 0)
    for (i = 0; i < BUCKETS; i++)
      printf("%d%c", bucket[i], i == BUCKETS - 1 ? '\n' : ' ');
  return 0;
}
