/* E3: a shift count is at least the width of the left side (C99 6.5.7). */
int main(void) {
  int count = 32;
  return 1 << count;
}
