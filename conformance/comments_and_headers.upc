#include <stdio.h>
#include <upc.h>
/* The answer,
   in hexadecimal. */
#define ANSWER 0x2A
shared int x; // a shared int
int main(void) {
  x = ANSWER; /* each thread writes */
  upc_barrier;
  printf("%d\n", x);
  return NULL;
}
