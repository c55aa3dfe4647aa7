/* A strict variable that every thread writes, and a barrier. What stands before the barrier is seen after it, so each
   thread prints 42, a line each (UPC 6.5.1.1, 6.6.1). */
strict shared int x;
int main() {
  x = 6 * 7;
  upc_barrier;
  printf("%d\n", x);
  return 0;
}
