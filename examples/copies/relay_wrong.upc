/* A word passed on: thread 0 fills an array; thread 1 looks at the last element until it is there, and then sets a flag
   for thread 2, which looks at the flag now and then, and adds up the array. All accesses are relaxed.

   Outcomes, as the sum of the 40 ones that thread 2 prints:
   - By UPC: each of 0 to 40. What thread 1 has seen says nothing of thread 2: in thread 2's own order each of thread
     0's writes may stand after its read of that element, and the writes of thread 0 in any order (Appendix B).
   - By the write buffer: 40, in every run. The elements leave thread 0's buffer in order, no write of one takes the
     place of another, and there is one history: what thread 1 has seen stands in it before thread 1's write of the
     flag, and so before all that thread 2 reads once it has seen the flag.
   - By copies with mail: each of 0 to 40; `upc replica` prints a small number. Thread 1 looks all the time and soon has
     all mail from thread 0. Its flag is the first of its own mail to thread 2, which has taken in little of the mail
     from thread 0 by then. The elements that thread 2 has are the first ones, since mail from one thread comes in
     order.
   - With a strict flag and nothing else changed: 40 on both memories, since all that a thread has seen or sent has
     reached all threads before its strict access; by UPC still each of 0 to 40. Mended: relay_right. */
#include <upc_relaxed.h>
#include <stdio.h>

#define N 40
#define PAUSE 1000

shared int data[N * THREADS];
shared int flag;
shared int done;

int main(void) {
  int i;
  int sum = 0;
  switch (MYTHREAD) {
    case 0:
      for (i = 0; i < 3 * PAUSE; i++)
        ;
      for (i = 0; i < N; i++)
        data[i] = 1;
      break;
    case 1:
      while (!data[N - 1])
        ;
      flag = 1;
      break;
    case 2:
      while (!flag)
        for (i = 0; i < PAUSE; i++)
          ;
      for (i = 0; i < N; i++)
        sum += data[i];
      printf("%d\n", sum);
      done = 1;
  }
  // No thread comes to the barrier after main, which orders all, before the sum is made.
  while (!done)
    ;
  return 0;
}
