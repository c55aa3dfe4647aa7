/* Private work alone: assignments, arithmetic, comparisons and array accesses. bench/machine/loop.lua does the same. */
#include <stdio.h>

int a[100];

int main(void) {
  int i;
  int x = 0;
  for (i = 0; i < 2000000; i++) {
    a[i % 100] = a[i * 7 % 100] + i % 12;
    if (a[i % 100] > 1000)
      a[i % 100] -= 900;
    x = x + a[i % 100] * 3 - x / 4;
  }
  printf("%d\n", x);
  return 0;
}
