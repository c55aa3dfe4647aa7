/* Message passing with a relaxed flag: thread 0 writes the data and then the flag, and thread 1 looks at the flag once.
   Where it sees the flag, nothing makes the data come before it: by UPC it might see old data (UPC 5.1.2.3), and both
   the flag and the data are told as races. Where it does not, it leaves the data alone, and the flag alone is told.
   Mended: message_right. */
#include <upc_relaxed.h>
#include <stdio.h>

shared int data;
shared int flag;

int main(void) {
  if (MYTHREAD == 0) {
    data = 42;
    flag = 1;
  } else if (flag)
    printf("%d\n", data);
  else
    printf("nothing yet\n");
  return 0;
}
