/* E4: a null pointer is followed. */
int main(void) {
  shared int *nowhere = NULL;
  return *nowhere;
}
