#include <stdio.h>
int main(void) {
  printf("%d %d %d\n", 0x1e + 1, 0x1f+1, 0x1E -1);
  return 0;
}
