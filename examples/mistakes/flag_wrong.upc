/* A relaxed flag: thread 0 writes the data and then the flag, and thread 1 may see the flag before the data, since the
   relaxed writes of a thread may reach the others in any order (UPC 6.5.1.1). It may print 42, or 0: in the buffer
   here the second write of the flag takes the place of the first, which stands before the data. Mended: flag_right. */
#include <upc_relaxed.h>
#include <stdio.h>

#define PAUSE 1000

shared int data;
shared int flag;

int main(void) {
  int i;
  if (MYTHREAD == 0) {
    flag = 0;
    data = 42;
    flag = 1;
  }
  if (MYTHREAD == 1) {
    while (!flag)
      for (i = 0; i < PAUSE; i++)
        ;
    printf("%d\n", data);
  }
  return 0;
}
