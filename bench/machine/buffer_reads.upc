/* Relaxed reads of a cell that no pending write has, while HELD writes are pending. bench/machine/buffer puts HELD and
   TURNS in front. */
#include <upc_relaxed.h>

shared int held[64];
shared int cell;

int main(void) {
  int i;
  int sum = 0;
  for (i = 0; i < HELD; i++)
    held[i] = i;
  for (i = 0; i < TURNS; i++)
    sum += cell;
  return sum;
}
