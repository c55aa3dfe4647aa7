/* Which element lies where. Four arrays of eight elements, and of each element the thread that it lies on, its phase
   (its place in its block) and its byte on that thread, counted from where the array begins there (UPC 6.5.1.1, 7.2.3).
   `shared` alone has blocks of one, [3] of three, [*] as long as makes one block a thread, [] one block on thread 0.
   The output is that of four threads; `upc layout -T 4` tells the bytes that each thread has. */
#include <upc_relaxed.h>
#include <stdio.h>

#define COUNT 8

shared int one[COUNT];
shared [3] int three[COUNT];
shared [*] int even[COUNT];
shared [] int whole[COUNT];

void show(size_t thread, size_t phase, size_t byte) {
  printf(" | %lu     %lu     %2lu", thread, phase, byte);
}

int main(void) {
  int i;
  if (MYTHREAD != 0)
    return 0;
  printf("  | one              | three            | even             | whole\n");
  printf("i | thread phase byte| thread phase byte| thread phase byte| thread phase byte\n");
  for (i = 0; i < COUNT; i++) {
    printf("%d", i);
    show(upc_threadof(&one[i]), upc_phaseof(&one[i]), upc_addrfield(&one[i]) - upc_addrfield(&one[0]));
    show(upc_threadof(&three[i]), upc_phaseof(&three[i]), upc_addrfield(&three[i]) - upc_addrfield(&three[0]));
    show(upc_threadof(&even[i]), upc_phaseof(&even[i]), upc_addrfield(&even[i]) - upc_addrfield(&even[0]));
    show(upc_threadof(&whole[i]), upc_phaseof(&whole[i]), upc_addrfield(&whole[i]) - upc_addrfield(&whole[0]));
    printf("\n");
  }
  return 0;
}
