/* E6: an access to a private object whose block was left. */
int main(void) {
  int *left;
  {
    int inside = 1;
    left = &inside;
  }
  return *left;
}
