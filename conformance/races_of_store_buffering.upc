#include <upc_relaxed.h>
shared int x; shared int y;
int main(void) {
  int r;
  if (MYTHREAD == 0) { x = 1; r = y; } else { y = 1; r = x; }
  return 0;
}
