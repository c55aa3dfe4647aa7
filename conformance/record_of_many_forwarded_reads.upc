shared int x;
int main(void) {
  int i; int sum = 0;
  x = 1;
  for (i = 0; i < 131072; i++) sum += x & 0;
  return sum;
}
