/* Pointers that walk over blocks. A pointer-to-shared counts elements, wherever they lie: p + 1 is the next one, on the
   next thread where a block ends; q - p says how many steps there are from p to q, and p < q whether there is any ahead
   (UPC 6.4.2). Thread 0 turns an array round from both ends, and looks up a value by halves. */
#include <upc_relaxed.h>
#include <stdio.h>

#define COUNT 20

shared [3] int value[COUNT];

void turn_round(shared [3] int *low, shared [3] int *high) {
  int kept;
  for (; low < high; low++, high--) {
    kept = *low;
    *low = *high;
    *high = kept;
  }
}

/* The first of the elements from low up to end that is not less than wanted; they rise. */
shared [3] int *first_not_less(shared [3] int *low, shared [3] int *end, int wanted) {
  shared [3] int *middle;
  while (low < end) {
    middle = low + (end - low) / 2;
    if (*middle < wanted)
      low = middle + 1;
    else
      end = middle;
  }
  return low;
}

int main(void) {
  int i;
  upc_forall (i = 0; i < COUNT; i++; &value[i])
    value[i] = 100 - 5 * i;
  upc_barrier;
  if (MYTHREAD == 0) {
    turn_round(&value[0], &value[COUNT - 1]);
    printf("from %d to %d\n", value[0], value[COUNT - 1]);
    printf("from 17 to 4 there are %ld steps, from 4 to 17 %ld\n", &value[4] - &value[17], &value[17] - &value[4]);
    printf("60 stands at %ld\n", first_not_less(value, value + COUNT, 60) - value);
    printf("61 would stand at %ld\n", first_not_less(value, value + COUNT, 61) - value);
    printf("1000 would stand at %ld\n", first_not_less(value, value + COUNT, 1000) - value);
  }
  return 0;
}
