/* Arrays of arrays: N products of matrices of 32 rows. */
#include <stdio.h>

int a[32][32];
int b[32][32];
int c[32][32];

int main(void) {
  int i;
  int j;
  int k;
  int n;
  int s = 0;
  for (i = 0; i < 32; i++)
    for (j = 0; j < 32; j++) {
      a[i][j] = i + j;
      b[i][j] = i - j;
    }
  for (n = 0; n < N; n++)
    for (i = 0; i < 32; i++)
      for (j = 0; j < 32; j++) {
        int t = 0;
        for (k = 0; k < 32; k++)
          t += a[i][k] * b[k][j] % 6;
        c[i][j] = t;
      }
  for (i = 0; i < 32; i++)
    for (j = 0; j < 32; j++)
      s += c[i][j] % 12;
  printf("%d\n", s);
  return 0;
}
