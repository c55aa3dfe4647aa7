strict shared int x;
int main(void) {
  while (1) { x = 1; }
  return 0;
}
