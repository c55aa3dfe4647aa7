/* Message passing. Thread 0 writes the data, which is relaxed, and then a flag, which is strict; thread 1 waits for the
   flag and prints the data. A strict access stands after all that its thread did before (UPC 6.5.1.1), so with two
   threads it prints 42 in every run. The last loop stands for `if`. */
relaxed shared int data;
strict shared int flag;
strict shared int taken;
int main() {
  while ((1 - MYTHREAD) * (1 - flag)) {
    data = 42;
    flag = 1;
  }
  while (MYTHREAD * (1 - flag)) {
  }
  while (MYTHREAD * (1 - taken)) {
    printf("%d\n", data);
    taken = 1;
  }
  return 0;
}
