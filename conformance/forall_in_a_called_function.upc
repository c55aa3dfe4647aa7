#include <stdio.h>
shared int c[THREADS]; void inner(void) { int j; upc_forall (j = 0; j < 2; j++; j) c[MYTHREAD]++; } int main(void) { int i; upc_forall (i = 0; i < 4; i++; i) inner(); upc_barrier; if (MYTHREAD == 0) printf("%d %d\n", c[0], c[1]); return 0; }
