#include <upc_relaxed.h>
#include <stdio.h>
shared [] int x[2];
int main(void) {
  upc_memset(x, 255, 8);
  printf("%d %d\n", x[0], x[1]);
  return 0;
}
