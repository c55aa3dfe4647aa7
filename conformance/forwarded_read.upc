shared int x;
shared int y;
int main() {
  x = 1;
  x = y + x;
  printf("%d\n", x);
  upc_fence;
  return x;
}
