/* A farm: thread 0 scatters the work, each thread does its share, thread 0 gathers the results. What all need, the
   coefficients of a polynomial, goes out by a broadcast. The broadcast leaves its second barrier out and the
   scatter its first: the broadcast's first barrier has thread 0's writes for both, and the scatter's second ends
   both. */
#include <upc_relaxed.h>
#include <upc_collective.h>
#include <stdio.h>
#define SHARE 3
shared [] int table[4];
shared [4] int tables[4 * THREADS];
shared [] int work[SHARE * THREADS];
shared [SHARE] int share[SHARE * THREADS];
shared [] int result[SHARE * THREADS];

int main(void) {
  int i;
  int *t = (int *)&tables[4 * MYTHREAD];
  int *s = (int *)&share[SHARE * MYTHREAD];
  if (MYTHREAD == 0) {
    for (i = 0; i < 4; i++) table[i] = 2 * i + 1;
    for (i = 0; i < SHARE * THREADS; i++) work[i] = i;
  }
  upc_all_broadcast(tables, table, 4 * sizeof(int), UPC_OUT_NOSYNC);
  upc_all_scatter(share, work, SHARE * sizeof(int), UPC_IN_NOSYNC);
  for (i = 0; i < SHARE; i++) s[i] = t[0] + s[i] * (t[1] + s[i] * (t[2] + s[i] * t[3]));
  upc_all_gather(result, share, SHARE * sizeof(int), 0);
  if (MYTHREAD == 0)
    for (i = 0; i < SHARE * THREADS; i++) printf("%d\n", result[i]);
  return 0;
}
