/* Who takes which turn of a upc_forall (UPC 6.6.2). The fourth part is the affinity: an integer a gives the turn to
   thread a modulo THREADS, and the remainder is not negative; a pointer-to-shared gives it to the thread where its
   element lies; with `continue` each thread takes every turn. So i / 4 shares out blocks of four turns, and &value[i]
   just as the blocks of the array lie. A line for each of i, -i, i / 4 and &value[i]: the threads that took the turns;
   and then how many turns each thread took of one with `continue`. The output is that of four threads. */
#include <upc_relaxed.h>
#include <stdio.h>

#define COUNT 12

shared [4] int value[COUNT];
shared int who[COUNT];
shared int turns[THREADS];

void show(void) {
  int i;
  upc_barrier;
  if (MYTHREAD == 0) {
    for (i = 0; i < COUNT; i++)
      printf(" %d", who[i]);
    printf("\n");
  }
  upc_barrier;
}

int main(void) {
  int i;
  upc_forall (i = 0; i < COUNT; i++; i)
    who[i] = MYTHREAD;
  show();
  upc_forall (i = 0; i < COUNT; i++; -i)
    who[i] = MYTHREAD;
  show();
  upc_forall (i = 0; i < COUNT; i++; i / 4)
    who[i] = MYTHREAD;
  show();
  upc_forall (i = 0; i < COUNT; i++; &value[i])
    who[i] = MYTHREAD;
  show();
  upc_forall (i = 0; i < COUNT; i++; continue)
    turns[MYTHREAD]++;
  upc_barrier;
  if (MYTHREAD == 0) {
    for (i = 0; i < THREADS; i++)
      printf(" %d", turns[i]);
    printf("\n");
  }
  return 0;
}
