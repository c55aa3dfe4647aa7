/* Ring queue by strict flags: each thread has a queue with four slots that lie on it, into which the thread before it
   puts and from which it takes. The slots are relaxed; how many were put and how many were taken are strict, so
   whoever sees a count sees the slots before it (UPC 6.5.1.1). Items go once round all threads, each adds its number
   to them, and thread 0, which lets four be under way, takes them back in the order in which they went. Who waits
   turns a private loop between two looks; how often it looks differs from run to run, so no traffic is stored. */
#include <upc_relaxed.h>
#include <stdio.h>

#define SLOTS 4
#define ITEMS 10
#define PAUSE 1000

shared [SLOTS] int slot[THREADS][SLOTS];
strict shared int filled[THREADS];
strict shared int taken[THREADS];

void pause(void) {
  int i;
  for (i = 0; i < PAUSE; i++)
    ;
}

void put(int thread, int item) {
  int number = filled[thread];
  while (number - taken[thread] == SLOTS)
    pause();
  slot[thread][number % SLOTS] = item;
  filled[thread] = number + 1;
}

int take(void) {
  int number = taken[MYTHREAD];
  int item;
  while (filled[MYTHREAD] == number)
    pause();
  item = slot[MYTHREAD][number % SLOTS];
  taken[MYTHREAD] = number + 1;
  return item;
}

/* What an item has gained when it is back: the numbers of the other threads. */
int gained(int item, int i) {
  return item - i * 1000 == THREADS * (THREADS - 1) / 2;
}

int main(void) {
  int next = (MYTHREAD + 1) % THREADS;
  int right = 0;
  int back = 0;
  int i;
  for (i = 0; i < ITEMS; i++)
    if (MYTHREAD > 0)
      put(next, take() + MYTHREAD);
    else {
      if (i >= SLOTS)
        right += gained(take(), back++);
      put(next, i * 1000);
    }
  while (MYTHREAD == 0 && back < ITEMS)
    right += gained(take(), back++);
  if (MYTHREAD == 0)
    printf("%d of %d items came back right and in order\n", right, ITEMS);
  return 0;
}
