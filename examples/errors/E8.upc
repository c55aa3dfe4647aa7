/* E8: an offset of more than 2^40 bytes. */
int main(void) {
  int value[2];
  int *far = value + (1L << 42);
  return 0;
}
