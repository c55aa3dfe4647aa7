shared int x; shared int y;
int main(void) {
  if (MYTHREAD == 0) { x = 1; y = 1; }
  return 0;
}
