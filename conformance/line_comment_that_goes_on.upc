int main(void) {
  // the answer \
  return 1;
  return 0;
}
