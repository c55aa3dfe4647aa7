#include <upc_relaxed.h>
#include <stdio.h>
#define N 400
shared int a[N];
shared int total;
int main(void) {
  int i; int part = 0;
  upc_lock_t *lk = upc_all_lock_alloc();
  upc_forall (i = 0; i < N; i++; &a[i]) a[i] = i;
  upc_barrier;
  for (i = MYTHREAD; i < N; i += THREADS) part += a[i];
  upc_lock(lk); total += part; upc_unlock(lk);
  upc_barrier;
  if (MYTHREAD == 0) printf("%d\n", total);
  return 0;
}
