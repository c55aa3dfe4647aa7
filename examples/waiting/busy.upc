/* Thread 0 waits for a flag by a loop that looks at it all the time, and each look is an item of its record. As it
   stands there is room; with --actions 10000 the record is full before thread 1 comes to the flag: status 108. */
#include <upc_strict.h>
#include <stdio.h>

#define WORK 20000

shared int flag;

int main(void) {
  int i;
  if (MYTHREAD == 0) {
    while (!flag)
      ;
    printf("thread 0 goes on\n");
  }
  if (MYTHREAD == 1) {
    for (i = 0; i < WORK; i++)
      ;
    flag = 1;
  }
  return 0;
}
