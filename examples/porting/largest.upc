/* A program with #if, macros with parameters, a continued line and a header of its own: upc refuses it as it stands, and
   takes what bin/pre makes of it by the system's cpp, outside of what is proved. Then it prints the largest element. */
#include <upc.h>
#include "largest.h"

#if defined(__UPC_STATIC_THREADS__) && PER_THREAD > 2
#define COUNT (PER_THREAD * THREADS)
#else
#error "three elements for each thread at least"
#endif

#define EACH(i) \
  for ((i) = 0; (i) < COUNT; (i)++) \
    if (owner_of(i) == MYTHREAD)

shared int value[COUNT];

int main(void) {
  int i, most = 0;
  EACH(i) value[i] = (7 * i) % 10;
  upc_barrier;
  for (i = 0; i < COUNT; i++)
    most = LARGER(most, value[i]);
  if (MYTHREAD == 0)
    printf("the largest is %d\n", most);
#ifdef FAULT
  if (MYTHREAD == 0)
    return 1 / (most - most);
#endif
  return 0;
}
