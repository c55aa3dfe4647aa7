shared int x;
int main(void) {
  x = x + 1;
  upc_barrier;
  if (MYTHREAD == 0) printf("x %d\n", x);
  return 0;
}
