/* Shared cells: a relaxed read and a relaxed write, 256 times, N times. */
#include <stdio.h>
#include <upc_relaxed.h>

shared int a[256];

int main(void) {
  int i;
  int n;
  int s = 0;
  for (n = 0; n < N; n++) {
    for (i = 0; i < 256; i++)
      a[i] = a[i] + n;
  }
  for (i = 0; i < 256; i++)
    s += a[i];
  printf("%d\n", s);
  return 0;
}
