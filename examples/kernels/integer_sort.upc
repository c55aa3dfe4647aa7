/* Integer sort: keys are counted in buckets and put at their ranks, as in a counting sort. Each thread counts the keys
   that lie on it in a row of its own, and after a barrier it knows from all rows where its keys go; equal keys keep
   their order, since the blocks of the array come one thread after another (UPC 6.5.1.1). The check counts neighbours
   that are out of order, and adds up the keys with their places. */
#include <upc_relaxed.h>
#include <stdio.h>

#define COUNT 192
#define BUCKETS 12

shared [*] int key[COUNT];
shared [*] int sorted[COUNT];
shared [BUCKETS] int row[THREADS][BUCKETS];

int made(int i) {
  return (i * 37 + i * i % 11) % BUCKETS;
}

void count_keys(void) {
  int count[BUCKETS];
  int i;
  for (i = 0; i < BUCKETS; i++)
    count[i] = 0;
  upc_forall (i = 0; i < COUNT; i++; &key[i])
    count[key[i]]++;
  for (i = 0; i < BUCKETS; i++)
    row[MYTHREAD][i] = count[i];
}

/* The place of this thread's first key of a bucket: after all lower keys, and after those of the threads before. */
void find_places(int *place) {
  int bucket;
  int thread;
  int before = 0;
  for (bucket = 0; bucket < BUCKETS; bucket++)
    for (thread = 0; thread < THREADS; thread++) {
      if (thread == MYTHREAD)
        place[bucket] = before;
      before += row[thread][bucket];
    }
}

int main(void) {
  int place[BUCKETS];
  int i;
  int wrong = 0;
  long sum = 0;
  upc_forall (i = 0; i < COUNT; i++; &key[i])
    key[i] = made(i);
  count_keys();
  upc_barrier;
  find_places(place);
  upc_forall (i = 0; i < COUNT; i++; &key[i])
    sorted[place[key[i]]++] = key[i];
  upc_barrier;
  if (MYTHREAD == 0) {
    for (i = 0; i < COUNT; i++) {
      wrong += i > 0 && sorted[i - 1] > sorted[i];
      sum += (long)i * sorted[i];
    }
    printf("%d keys, %d out of order, sum %ld\n", COUNT, wrong, sum);
  }
  return 0;
}
