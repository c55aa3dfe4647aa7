/* message_wrong with a strict flag: a strict write comes before each later strict read of its variable, and so what its
   thread did before it comes before what the other does after (UPC Appendix B). The data may stay relaxed. Two strict
   accesses are no race, so there is none, whether thread 1 sees the flag or not. */
#include <upc_relaxed.h>
#include <stdio.h>

shared int data;
strict shared int flag;

int main(void) {
  if (MYTHREAD == 0) {
    data = 42;
    flag = 1;
  } else if (flag)
    printf("%d\n", data);
  else
    printf("nothing yet\n");
  return 0;
}
