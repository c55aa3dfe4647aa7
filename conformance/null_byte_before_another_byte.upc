#include <stdio.h>
int main(void) {
  printf("\08" "\0" "1");
  printf("\\01");
  return 0;
}
