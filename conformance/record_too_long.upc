strict shared int x;
int main(void) {
  int i;
  for (i = 0; i < 32768; i++) x = i;
  return 0;
}
