int main(void) {
  // is it so??/
  return 1;
  return 0;
}
