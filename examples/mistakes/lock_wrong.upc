/* No lock: each thread reads a total, works, and writes it back with one more. Another thread may have written between
   the two, and what it wrote is lost. Two threads may so end with 2, or with 1; that the total is strict does not
   help, since strict orders accesses and joins none (UPC 6.5.1.1). Mended: lock_right. */
#include <upc_relaxed.h>
#include <stdio.h>

#define WORK 2000

strict shared int total;

int main(void) {
  int seen;
  int i;
  seen = total;
  for (i = 0; i < WORK; i++)
    ;
  total = seen + 1;
  upc_barrier;
  if (MYTHREAD == 0)
    printf("%d\n", total);
  return 0;
}
