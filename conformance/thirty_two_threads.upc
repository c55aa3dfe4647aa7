strict shared int x;
int main() {
  x = THREADS;
  upc_barrier;
  printf("%d\n", x);
  return 0;
}
