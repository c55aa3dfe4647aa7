// Every kind of layout, in a source that only modes check and layout take.
#include <upc_relaxed.h>
#define N 20
struct pair { int a; char c; };
shared [3] int a[N];
shared [] int s[8];
int hidden;
shared [*] int d[10];
shared [2] struct pair q[5];
shared [2] char m[3][4];
strict shared long x;
int main(void) {
  int i;
  upc_forall (i = 0; i < N; i++; &a[i]) a[i] = i;
  upc_barrier;
  return 0;
}
