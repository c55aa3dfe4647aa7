#include <stdio.h>
int main(void) {
  printf("\01");
  return 0;
}
