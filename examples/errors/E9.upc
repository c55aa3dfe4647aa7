/* E9: a difference of pointers into two objects (C99 6.5.6). */
int main(void) {
  int one[2];
  int other[2];
  return one - other;
}
