/* MP, message passing: thread 0 writes data and then a flag; thread 1 reads the flag and then the data.

   Outcomes, as (flag, data) that thread 1 read:
   - Relaxed, by UPC: (0, 0), (0, 1), (1, 0), (1, 1). Neither the two writes nor the two reads need be seen in program
     order, so (1, 0) is allowed: the flag without the data.
   - Strict, by UPC: all but (1, 0). To rule it out it is enough that both accesses to the flag are strict.
   - By the write buffer: all but (1, 0). The writes leave it in order, and a thread's reads are made in order.
     `upc run` may give each of these, and `bin/outcomes -T 2` lists them. */
#include <upc_relaxed.h>
#include <stdio.h>

shared int data;
shared int flag;
shared int seen[2];

int main(void) {
  if (MYTHREAD == 0) {
    data = 1;
    flag = 1;
  } else {
    seen[0] = flag;
    seen[1] = data;
  }
  upc_barrier;
  if (MYTHREAD == 0)
    printf("flag %d, data %d\n", seen[0], seen[1]);
  return 0;
}
