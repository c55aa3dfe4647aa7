/* Store buffering. Each of two threads writes one variable, and then reads and prints the other's. The accesses are
   relaxed: a write may wait in its thread's buffer while the thread reads, so UPC allows that both print 0; with
   `strict` one of them prints 1 (UPC 6.5.1.1). The strict flags end the loops, which stand for `if`. The command
   may print 0 twice, or 0 and then 1. */
relaxed shared int x;
relaxed shared int y;
strict shared int first_done;
strict shared int second_done;
int main() {
  while ((1 - MYTHREAD) * (1 - first_done)) {
    x = 1;
    printf("%d\n", y);
    first_done = 1;
  }
  while (MYTHREAD * (1 - second_done)) {
    y = 1;
    printf("%d\n", x);
    second_done = 1;
  }
  return 0;
}
