/* Shifts and bits at unsigned long, N turns. */
#include <stdio.h>

int main(void) {
  int i;
  unsigned long x = 88172645463325252ul;
  long s = 0;
  for (i = 0; i < N; i++) {
    x = x ^ (x << 13);
    x = x ^ (x >> 7);
    x = x ^ (x << 17);
    s = s + (long) (x % 1000);
  }
  printf("%d\n", (int) (s % 1000000));
  return 0;
}
