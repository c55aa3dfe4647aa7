/* A switch of six cases, N turns. */
#include <stdio.h>

int main(void) {
  int i;
  int s = 0;
  for (i = 0; i < N; i++) {
    switch (i % 6) {
    case 0:
      s += 1;
      break;
    case 1:
      s += i;
      break;
    case 2:
      s -= 3;
      break;
    case 3:
      s ^= i;
      break;
    case 4:
      s = s / 2;
      break;
    default:
      s = s + 7;
    }
    if (s > 100000)
      s -= 100000;
  }
  printf("%d\n", s);
  return 0;
}
