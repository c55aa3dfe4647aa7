/* A search tree in shared memory. Each node is made by upc_alloc and lies on the thread that made it; its links lead to
   nodes anywhere (UPC 7.2.2). The keys are shared out, and a lock guards the tree while one is put in. Who puts which
   node where depends on the run; the order in which the keys come out does not. */
#include <upc_relaxed.h>
#include <stdio.h>

#define COUNT 30

struct node {
  int key;
  shared [] struct node *less;
  shared [] struct node *more;
};

shared [] struct node *shared root;

void put(int key) {
  shared [] struct node *made = upc_alloc(sizeof(struct node));
  shared [] struct node *at = root;
  shared [] struct node *above = NULL;
  made->key = key;
  made->less = NULL;
  made->more = NULL;
  while (at) {
    above = at;
    at = key < at->key ? at->less : at->more;
  }
  if (!above)
    root = made;
  else if (key < above->key)
    above->less = made;
  else
    above->more = made;
}

void show(shared [] struct node *at) {
  if (at) {
    show(at->less);
    printf("%d ", at->key);
    show(at->more);
  }
}

int main(void) {
  upc_lock_t *guard = upc_all_lock_alloc();
  int i;
  for (i = MYTHREAD; i < COUNT; i += THREADS) {
    upc_lock(guard);
    put(i * 17 % COUNT);
    upc_unlock(guard);
  }
  upc_barrier;
  if (MYTHREAD == 0) {
    show(root);
    printf("\n");
  }
  return 0;
}
