/* E19: more than 1,000 calls are active. */
int deeper(int n) {
  return deeper(n + 1);
}
int main(void) {
  return deeper(0);
}
