/* Reads and writes of shared cells, relaxed or strict by the header that bench/machine/run puts
   in front, with the number of turns and of cells. */
shared int cell[CELLS];

int main(void) {
  int i;
  for (i = 0; i < TURNS; i++)
    cell[i % CELLS] = cell[(i + 5) % CELLS] + 1;
  return 0;
}
