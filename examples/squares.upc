/* The sum of squares. Each thread writes the elements of the shared array that lie on it; after the barrier each adds
   up all of them, and thread 0 prints the sum (UPC 6.5.1.1, 6.6). */
shared int a[8];
int main(void) {
  int i, sum = 0;
  upc_forall (i = 0; i < 8; i++; &a[i]) a[i] = i * i;
  upc_barrier;
  for (i = 0; i < 8; i++) sum += a[i];
  if (MYTHREAD == 0) printf("%d\n", sum);
  return 0;
}
