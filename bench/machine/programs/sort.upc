/* An array: N sorts of 200 numbers by insertion. */
#include <stdio.h>

int a[200];

int main(void) {
  int i;
  int j;
  int n;
  int t;
  int s = 0;
  for (n = 0; n < N; n++) {
    for (i = 0; i < 200; i++)
      a[i] = (i * 7919 + n) % 1000;
    for (i = 1; i < 200; i++) {
      t = a[i];
      j = i - 1;
      while (j >= 0 && a[j] > t) {
        a[j + 1] = a[j];
        j--;
      }
      a[j + 1] = t;
    }
    s = (s + a[100]) % 10000;
  }
  printf("%d\n", s);
  return 0;
}
