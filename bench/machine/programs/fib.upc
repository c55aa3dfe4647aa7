/* A function that calls itself: the N-th number of Fibonacci. */
#include <stdio.h>

int f(int n) {
  if (n < 2)
    return n;
  return f(n - 1) + f(n - 2);
}

int main(void) {
  printf("%d\n", f(N));
  return 0;
}
