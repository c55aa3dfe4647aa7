/* relay_wrong with two strict flags: thread 0 says that the array is full, thread 1 passes the word on, and thread 2
   adds up the array. The data stays relaxed.

   Outcomes, as the sum of the 40 ones that thread 2 prints:
   - By UPC: 40. Thread 0's writes come before its strict write of `full`, that one before thread 1's strict read which
     finds it, that read before the strict write of `flag`, and so on to thread 2's reads; and no thread's order may
     turn the strict order round (Appendix B).
   - By the write buffer: 40. Before a strict access the buffer is emptied.
   - By copies with mail: 40. Before a strict access all mail comes to all threads. */
#include <upc_relaxed.h>
#include <stdio.h>

#define N 40
#define PAUSE 1000

shared int data[N * THREADS];
strict shared int full;
strict shared int flag;

int main(void) {
  int i;
  int sum = 0;
  switch (MYTHREAD) {
    case 0:
      for (i = 0; i < 3 * PAUSE; i++)
        ;
      for (i = 0; i < N; i++)
        data[i] = 1;
      full = 1;
      break;
    case 1:
      while (!full)
        for (i = 0; i < PAUSE; i++)
          ;
      flag = 1;
      break;
    case 2:
      while (!flag)
        for (i = 0; i < PAUSE; i++)
          ;
      for (i = 0; i < N; i++)
        sum += data[i];
      printf("%d\n", sum);
  }
  return 0;
}
