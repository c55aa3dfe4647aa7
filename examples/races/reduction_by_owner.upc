/* A reduction by owner: each thread adds up the elements that lie on it and writes its part, which lies on it too. A
   barrier follows, before whose end the parts of all threads come (UPC 6.6.1), and then thread 0 adds up the parts.
   What its owner alone writes, and others read after a barrier alone, is in no race. */
#include <upc_relaxed.h>
#include <stdio.h>

#define COUNT 24

shared int value[COUNT];
shared int part[THREADS];

int main(void) {
  int i;
  int sum = 0;
  upc_forall (i = 0; i < COUNT; i++; &value[i])
    value[i] = i * i;
  upc_forall (i = 0; i < COUNT; i++; &value[i])
    sum += value[i];
  part[MYTHREAD] = sum;
  upc_barrier;
  if (MYTHREAD == 0) {
    sum = 0;
    for (i = 0; i < THREADS; i++)
      sum += part[i];
    printf("%d\n", sum);
  }
  return 0;
}
