/* A pointer that goes through an array of 100, N times. */
#include <stdio.h>

int a[100];

int sum(int *p, int n) {
  int s = 0;
  int *e = p + n;
  while (p < e) {
    s += *p;
    p++;
  }
  return s;
}

int main(void) {
  int i;
  int s = 0;
  for (i = 0; i < 100; i++)
    a[i] = i;
  for (i = 0; i < N; i++)
    s = (s + sum(a, 100)) % 10000;
  printf("%d\n", s);
  return 0;
}
