/* A barrier under an `if`: thread 0 meets one barrier more than the others. Their barrier after `main` answers it, and
   then none answers thread 0's own after `main` (UPC 6.6.1), so the run ends with a deadlock, status 106. Mended:
   branch_right. */
#include <upc_relaxed.h>
#include <stdio.h>

shared int value;

int main(void) {
  if (MYTHREAD == 0) {
    value = 7;
    upc_barrier;
  }
  if (MYTHREAD == 0)
    printf("%d\n", value);
  return 0;
}
