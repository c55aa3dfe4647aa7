/* Busy waiting: thread 1 looks at a flag all the time, and each look is an item of its record: a thousand in each
   round. Here there is room for them; a longer wait ends with status 108. Mended: waiting_right. */
#include <upc_relaxed.h>
#include <stdio.h>

#define WORK 10000

shared int result;
strict shared int ready;

int main(void) {
  int i;
  if (MYTHREAD == 0) {
    for (i = 0; i < WORK; i++)
      ;
    result = i;
    ready = 1;
  } else {
    while (!ready)
      ;
    if (MYTHREAD == 1)
      printf("%d\n", result);
  }
  return 0;
}
