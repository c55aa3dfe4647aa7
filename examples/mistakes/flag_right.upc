/* flag_wrong with a strict flag: before a strict access of a thread all that it wrote has reached the others, and
   after one it reads anew (UPC 6.5.1.1). So thread 1 prints 42 in every run, and the data may stay relaxed. */
#include <upc_relaxed.h>
#include <stdio.h>

#define PAUSE 1000

shared int data;
strict shared int flag;

int main(void) {
  int i;
  if (MYTHREAD == 0) {
    flag = 0;
    data = 42;
    flag = 1;
  }
  if (MYTHREAD == 1) {
    while (!flag)
      for (i = 0; i < PAUSE; i++)
        ;
    printf("%d\n", data);
  }
  return 0;
}
