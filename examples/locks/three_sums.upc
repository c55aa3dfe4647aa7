/* One sum in three ways. By a lock: each thread adds its share to one variable, one thread at a time. By a split
   barrier: each thread puts its share into an element of its own and notifies, and the wait lets all read. By owner
   computes: at each step the thread that an element lies on adds another element to it, half as many each time, and a
   barrier stands between the steps (UPC 6.6.1, 6.6.2, 7.2.4). */
#include <upc_relaxed.h>
#include <stdio.h>

#define COUNT 64

shared int value[COUNT];
shared int total;
shared int share[THREADS];

void by_lock(upc_lock_t *guard, int mine) {
  upc_lock(guard);
  total += mine;
  upc_unlock(guard);
  upc_barrier;
  if (MYTHREAD == 0)
    printf("by a lock: %d\n", total);
}

void by_split_barrier(int mine) {
  int sum;
  int i;
  share[MYTHREAD] = mine;
  upc_notify;
  sum = mine;
  upc_wait;
  for (i = 0; i < THREADS; i++)
    if (i != MYTHREAD)
      sum += share[i];
  if (MYTHREAD == 0)
    printf("by a split barrier: %d\n", sum);
}

void by_owner(void) {
  int width;
  int i;
  for (width = COUNT / 2; width > 0; width /= 2) {
    upc_forall (i = 0; i < width; i++; &value[i])
      value[i] += value[i + width];
    upc_barrier;
  }
  if (MYTHREAD == 0)
    printf("by owner computes: %d\n", value[0]);
}

int main(void) {
  upc_lock_t *guard = upc_all_lock_alloc();
  int mine = 0;
  int i;
  upc_forall (i = 0; i < COUNT; i++; &value[i]) {
    value[i] = i * i;
    mine += i * i;
  }
  by_lock(guard, mine);
  by_split_barrier(mine);
  by_owner();
  return 0;
}
