/* E1: the result of a signed operator does not fit its type (C99 6.5). */
int main(void) {
  int most = 2147483647;
  return most + 1;
}
