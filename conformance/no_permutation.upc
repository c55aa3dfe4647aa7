#include <upc_relaxed.h>
#include <upc_collective.h>
#include <stdio.h>
shared [1] int a[2], d[2];
shared int perm[2];
int main(void) {
  upc_all_permute(d, a, perm, sizeof(int), 0);
  return 0;
}
