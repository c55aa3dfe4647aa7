/* Relaxed stores into CELLS cells in turn: with one cell each store is combined into the next, with 128 each has a new
   location and finds the buffer full. bench/machine/buffer puts CELLS and TURNS in front. */
#include <upc_relaxed.h>

shared int cell[CELLS];

int main(void) {
  int i;
  for (i = 0; i < TURNS; i++)
    cell[i % CELLS] = i;
  return 0;
}
