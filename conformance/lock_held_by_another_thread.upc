#include <upc_relaxed.h>
int main(void) {
  upc_lock_t *l = upc_all_lock_alloc();
  if (MYTHREAD == 0) upc_lock(l);
  upc_barrier;
  if (MYTHREAD == 1) upc_lock(l);
  return 0;
}
