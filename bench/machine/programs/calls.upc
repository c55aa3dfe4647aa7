/* Small functions: three calls a turn, N turns. */
#include <stdio.h>

int add(int a, int b) {
  return a + b;
}

int twice(int x) {
  return add(x, x) % 1001;
}

int main(void) {
  int i;
  int s = 1;
  for (i = 0; i < N; i++)
    s = add(twice(s), i) % 1000;
  printf("%d\n", s);
  return 0;
}
