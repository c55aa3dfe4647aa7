/* E2: the right side of a division is 0 (C99 6.5.5). */
int main(void) {
  int none = 0;
  return 1 / none;
}
