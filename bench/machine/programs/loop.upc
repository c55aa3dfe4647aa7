/* Assignments and arithmetic at int: N turns. */
#include <stdio.h>

int main(void) {
  int i;
  int s = 0;
  for (i = 0; i < N; i++) {
    s = (s + i * 3) % 1000000;
  }
  printf("%d\n", s);
  return 0;
}
