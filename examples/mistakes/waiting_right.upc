/* waiting_wrong with a split barrier: who waits at one has an item in each round, and needs no flag (UPC 6.6.1). What
   concerns no other thread may be done between upc_notify and upc_wait. Where a flag has to be, the loop turns a
   private loop between two looks: waiting/ring. */
#include <upc_relaxed.h>
#include <stdio.h>

#define WORK 10000

shared int result;

int main(void) {
  int i;
  if (MYTHREAD == 0) {
    for (i = 0; i < WORK; i++)
      ;
    result = i;
  }
  upc_notify;
  upc_wait;
  if (MYTHREAD == 1)
    printf("%d\n", result);
  return 0;
}
