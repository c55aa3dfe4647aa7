#include <stdio.h>
int main(void) {
  printf("what??!\n");
  return 0;
}
