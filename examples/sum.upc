/* The sum of an array that lies on all threads. Each thread fills the elements that lie on it, adds up its part, and
   adds that to the total under a lock; thread 0 prints the total when all have met (UPC 6.5.1.1, 6.6, 7.2.4). */
#include <upc_relaxed.h>
#include <stdio.h>

#define N 400

shared int a[N];
shared int total;

int main(void) {
  int i;
  int part = 0;
  upc_lock_t *guard = upc_all_lock_alloc();
  upc_forall (i = 0; i < N; i++; &a[i])
    a[i] = i;
  upc_barrier;
  for (i = MYTHREAD; i < N; i += THREADS)
    part += a[i];
  upc_lock(guard);
  total += part;
  upc_unlock(guard);
  upc_barrier;
  if (MYTHREAD == 0)
    printf("%d\n", total);
  return 0;
}
