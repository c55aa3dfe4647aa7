#include <stdio.h> /* for
  printf */
#define X 1 /* the
  number */ // of lines
#define Y 2 /* and */ /*
*/ /* again */
int main(void) {
  printf("%d\n", X + Y);
  return 0;
}
